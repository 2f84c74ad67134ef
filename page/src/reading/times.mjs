// Times and durations in words. `units` says how: `unit` is clock or milliseconds, and `start` the time of day of 0, in milliseconds.
import { NEVER } from "./constraints.mjs";

const SECOND = 1000, MINUTE = 60 * SECOND, HOUR = 60 * MINUTE, DAY = 24 * HOUR;

function padded(number, width) {
  return String(number).padStart(width, "0");
}

function plain(milliseconds) {
  return milliseconds.toLocaleString("en-US") + " ms";
}

// A time of day, or the time since 0.
export function clockWords(milliseconds) {
  const seconds = Math.floor(milliseconds / SECOND), rest = milliseconds % SECOND;
  const clock = Math.floor(seconds / 3600) + ":" + padded(Math.floor(seconds / 60) % 60, 2) + ":" + padded(seconds % 60, 2);
  return rest ? clock + "." + padded(rest, 3) : clock;
}

export function timeWords(time, { unit, start }) {
  if (time >= NEVER) return "never";
  if (time < 0) return "before 0";
  if (unit === "milliseconds") return plain(time);
  if (!start) return clockWords(time);
  const days = Math.floor((time + start) / DAY);
  return clockWords((time + start) % DAY) + (days ? " (day " + (days + 1) + ")" : "");
}

// A time for where there is little place.
export function shortTime(time, units) {
  return timeWords(time, units).replace(/ \(day (\d+)\)/, " d$1");
}

export function durationWords(milliseconds, { unit }) {
  if (unit === "milliseconds") return plain(milliseconds);
  if (milliseconds < SECOND) return milliseconds + " ms";
  if (milliseconds < MINUTE) return milliseconds / SECOND + " s";
  const parts = [[HOUR, "h"], [MINUTE, "min"]].map(([size, name]) => {
    const count = Math.floor(milliseconds / size);
    milliseconds -= count * size;
    return count ? count + " " + name : "";
  });
  return [...parts, milliseconds ? milliseconds / SECOND + " s" : ""].filter(Boolean).join(" ");
}

export function rangeWords({ least, greatest }, units) {
  if (greatest === null) return "at least " + durationWords(least, units);
  return least === greatest ? durationWords(least, units) : durationWords(least, units) + " to " + durationWords(greatest, units);
}

// The milliseconds of a time of day such as 6:00 or 18:30:15, or null if it is none.
export function startOf(text) {
  const said = /^(\d{1,2}):(\d\d)(?::(\d\d))?$/.exec(text.trim());
  if (!said || Number(said[1]) > 23 || Number(said[2]) > 59 || Number(said[3] || 0) > 59) return null;
  return Number(said[1]) * HOUR + Number(said[2]) * MINUTE + Number(said[3] || 0) * SECOND;
}
