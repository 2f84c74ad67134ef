// What the events of a log say of each monitored node.

const LAST_SILENCES = 200; // of a node; earlier ones say no more than these

// What the first events say, so many of them: all alarms of each node, and its last silences, its own and those of sweeps. `earlier` is how
// many silences come before these.
export function monitorsAt(graph, log, count) {
  const monitors = new Map(graph.monitored.map(node => [node, { alarms: [], silences: [], sweepCount: null }])), sweeps = [];
  for (let index = 0; index < count; index++) {
    const event = log.events[index], said = event.node === null ? null : monitors.get(event.node);
    if (event.kind === "sweep") sweeps.push(event);
    else if (event.kind === "silent") said.silences.push(event);
    else if (event.kind === "alarm") {
      if (!said.alarms.length) said.sweepCount = sweeps.length;
      said.alarms.push(event);
    }
  }
  for (const said of monitors.values()) Object.assign(said, lastSilences(said, sweeps));
  return monitors;
}

// A sweep silences a node only before its first alarm.
function lastSilences({ silences, sweepCount }, sweeps) {
  const count = sweepCount === null ? sweeps.length : sweepCount, swept = sweeps.slice(0, count).slice(-LAST_SILENCES);
  const all = [...silences.slice(-LAST_SILENCES), ...swept].sort((one, other) => one.number - other.number).slice(-LAST_SILENCES);
  return { silences: all, earlier: silences.length + count - all.length };
}

// The interval of an alarm: the instants that it leaves for the activation of its node.
export function intervalOf(graph, alarm) {
  const [least, greatest] = graph.nodes[alarm.node].lags;
  return [Math.max(0, alarm.time - greatest), Math.max(0, alarm.time - least)];
}

// The sign of a monitored node: an alarm, or asked and silent, or nothing said.
export function signOf(said) {
  if (!said) return null;
  return said.alarms.length ? "alarm" : said.silences.length ? "silent" : null;
}
