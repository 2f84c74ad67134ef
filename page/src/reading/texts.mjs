// Texts are bytes. As a string a text has one character for each byte, so that lengths and places are those of the bytes.

export class BadText extends Error {
  constructor(line, cause) {
    super("line " + line + ": " + cause);
    this.line = line;
    this.cause = cause;
  }
}

const CHUNK = 32768;

function isAscii(bytes) {
  let all = 0;
  for (let place = 0; place < bytes.length; place++) all |= bytes[place];
  return all < 128;
}

export function textOf(bytes) {
  if (isAscii(bytes)) return new TextDecoder("utf-8", { ignoreBOM: true }).decode(bytes);
  const parts = [];
  for (let from = 0; from < bytes.length; from += CHUNK) parts.push(String.fromCharCode(...bytes.subarray(from, from + CHUNK)));
  return parts.join("");
}

const CONTROLS = "NUL SOH STX ETX EOT ENQ ACK BEL BS TAB LF VT FF CR SO SI DLE DC1 DC2 DC3 DC4 NAK SYN ETB CAN EM SUB ESC FS GS RS US".split(" ");
const UNSEEN = new Map(Object.entries({
  "\u00ad": "soft hyphen", "\u061c": "Arabic letter mark", "\u200b": "zero width space", "\u200c": "zero width non-joiner",
  "\u200d": "zero width joiner", "\u200e": "left-to-right mark", "\u200f": "right-to-left mark", "\u2028": "line separator",
  "\u2029": "paragraph separator", "\u202a": "left-to-right embedding", "\u202b": "right-to-left embedding",
  "\u202c": "pop directional formatting", "\u202d": "left-to-right override", "\u202e": "right-to-left override", "\u2060": "word joiner",
  "\u2066": "left-to-right isolate", "\u2067": "right-to-left isolate", "\u2068": "first strong isolate", "\u2069": "pop directional isolate",
  "\ufeff": "byte order mark"
}));
const NAMED = /[\p{Cc}\p{Cf}\p{Zl}\p{Zp}]/gu;

// A character without a sign of its own, by its name.
function nameOfControl(character) {
  const code = character.codePointAt(0);
  if (code < 32) return "⟨" + CONTROLS[code] + "⟩";
  if (code === 127) return "⟨DEL⟩";
  const number = "U+" + code.toString(16).toUpperCase().padStart(4, "0");
  return "⟨" + number + (UNSEEN.has(character) ? " " + UNSEEN.get(character) : "") + "⟩";
}

// Characters with each control character by its name, so that none of them hides or turns what stands beside it.
export function shown(characters) {
  return characters.replace(NAMED, nameOfControl);
}

export function hasControls(characters) {
  return characters.search(NAMED) >= 0;
}

// The characters of a text of bytes, if it is UTF-8.
export function charactersOf(text) {
  return new TextDecoder("utf-8", { ignoreBOM: true }).decode(Uint8Array.from(text, character => character.charCodeAt(0)));
}

export function linesOf(text) {
  const lines = text.split("\n");
  if (lines[lines.length - 1] === "") lines.pop();
  return lines;
}

const KINDS = [
  ["graph", /^(tfpg [12]\n|\s*\{)/],
  ["report", /^report [12] k /],
  ["ask", /^questions now /],
  ["predict", /^predict \S+ now /],
  ["fleet", /^vehicle \S+\nreport [12] k /]
];

const LOG_LINE = /^(\S+ \d+|\S+) (alarm \S+|silent \S+|mode \S+|sweep|tick)$/m;

// The kind of a text by its first lines, or by a line that has the shape of one of a log, which in a stream has a name before it. Null if it
// is of no kind.
export function kindOf(text) {
  const found = KINDS.find(([, shape]) => shape.test(text.slice(0, 200)));
  return found ? found[0] : LOG_LINE.test(text) ? "log" : null;
}

// What a text is that is of no kind.
export function notKnown(text) {
  if (text === "") return "is empty";
  if (text.startsWith("\xef\xbb\xbf") || /^(\xff\xfe|\xfe\xff)/.test(text)) return "begins with a byte order mark, which no text of tfpg has";
  if (text.includes("\0")) return "has the byte 0, which no text of tfpg has";
  return "is none of the texts that tfpg reads or writes: no graph, log, report or answer begins so, and no line of it is one of a log";
}
