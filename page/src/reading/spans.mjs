// Spans: the maximal runs of instants with one mode. Windows: the maximal runs of spans in which an edge is active.

// All spans of a log. The last one has no end.
function allSpans(log) {
  if (log.spans && log.spansOf === log.modeChanges.length) return log.spans;
  const starts = new Map([[0, 0]]);
  for (const change of log.modeChanges) starts.set(change.time + 1, change.mode);
  const spans = [];
  for (const [lo, mode] of starts) {
    const last = spans[spans.length - 1];
    if (last && last.mode === mode) continue;
    if (last) last.hi = lo - 1;
    spans.push({ lo, hi: Infinity, mode });
  }
  Object.assign(log, { spans, spansOf: log.modeChanges.length });
  return spans;
}

export function numberAt(spans, instant) {
  let low = 0, high = spans.length - 1;
  while (low < high) {
    const middle = Math.ceil((low + high) / 2);
    if (spans[middle].lo <= instant) low = middle;
    else high = middle - 1;
  }
  return low;
}

// The spans up to a horizon.
export function spansAt(log, horizon) {
  const all = allSpans(log), last = numberAt(all, horizon);
  const spans = all.slice(0, last + 1);
  spans[last] = { ...spans[last], hi: horizon };
  return spans;
}

export function modeAt(log, instant) {
  const spans = allSpans(log);
  return spans[numberAt(spans, instant)].mode;
}

// The maximal run of such spans round the span of this number: the number of its first span, its first and its last instant.
export function windowOf(spans, number, isActive) {
  if (!spans[number] || !isActive(spans[number].mode)) return null;
  let first = number, last = number;
  while (first > 0 && isActive(spans[first - 1].mode)) first--;
  while (last + 1 < spans.length && isActive(spans[last + 1].mode)) last++;
  return { first, lo: spans[first].lo, hi: spans[last].hi };
}

export function edgeWindow(spans, number, edge) {
  return windowOf(spans, number, mode => edge.modes.has(mode));
}

// The window of an edge round an instant, by the spans up to a horizon.
export function windowAt(log, instant, horizon, edge) {
  const spans = spansAt(log, horizon);
  return edgeWindow(spans, numberAt(spans, instant), edge);
}

// The modes of the instants from one to another, each once, in their order.
export function modesBetween(log, from, to) {
  const spans = spansAt(log, to);
  return [...new Set(spans.slice(numberAt(spans, from)).map(span => span.mode))];
}
