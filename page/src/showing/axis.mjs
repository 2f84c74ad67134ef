// The axis of time of the tracks: by even steps from one instant to the next, or by the true scale; all of it, or a span that was chosen.
import { state, view } from "./state.mjs";
import { nowOf } from "../reading/log.mjs";

const MOST_STEPS = 4000, LABEL = 74; // pixels

// The last instant that the tracks show.
export function lastInstant() {
  const times = view.trace ? [...view.trace.values()] : [];
  return Math.max(1, nowOf(state.log), times.reduce((most, time) => Math.max(most, time), 0), state.forecast ? state.forecast.now : 0);
}

// A log with more events is shown by the true scale alone.
export function canBeEven() {
  return state.log !== null && state.log.events.length <= MOST_STEPS;
}

// Where an instant stands in so many pixels, which instant stands at a place, which are named, and a key that is the same for the same axis.
export function axisOf(width) {
  const last = lastInstant(), isEven = state.isEven && canBeEven();
  if (!isEven) {
    const at = instant => instant / last * width;
    return { at, instantAt: x => x / width * last, named: namedOf(evenTicks(last, width), at), last, key: width + " true " + last };
  }
  const times = [0, last, ...state.log.events.map(event => event.time), ...(view.trace ? view.trace.values() : [])];
  const instants = [...new Set(times)].sort((one, other) => one - other), { at, instantAt } = stepsAt(instants, width);
  return { at, instantAt, named: namedOf(instants, at), last, key: width + " even " + instants.join(" ") };
}

// The scale by which each step from one of these instants to the next is as wide as every other.
function stepsAt(instants, width) {
  const step = width / Math.max(1, instants.length - 1);
  const at = instant => {
    let low = 0, high = instants.length - 2;
    while (low < high) {
      const middle = Math.ceil((low + high) / 2);
      if (instants[middle] <= instant) low = middle;
      else high = middle - 1;
    }
    return step * (low + (instant - instants[low]) / (instants[low + 1] - instants[low]));
  };
  const instantAt = x => {
    const low = Math.max(0, Math.min(Math.floor(x / step), instants.length - 2));
    return instants[low] + (x / step - low) * (instants[low + 1] - instants[low]);
  };
  return { at, instantAt };
}

const SIZES_OF_STEPS = [1, 2, 5, 10, 20, 50, 100, 200, 500, 1e3, 2e3, 5e3, 1e4, 15e3, 3e4, 6e4, 12e4, 3e5, 6e5, 9e5, 18e5, 36e5, 72e5,
  216e5, 432e5, 864e5];

function evenTicks(last, width) {
  let step = SIZES_OF_STEPS.find(size => last / size <= width / 100) || SIZES_OF_STEPS[SIZES_OF_STEPS.length - 1];
  while (last / step > width / 100) step *= 2;
  return Array.from({ length: Math.floor(last / step) + 1 }, (_, index) => index * step);
}

function namedOf(instants, scale) {
  let free = -1;
  return instants.filter(instant => {
    if (scale(instant) < free) return false;
    free = scale(instant) + LABEL;
    return true;
  });
}
