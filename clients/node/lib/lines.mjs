// The text of commands and replies: names, literals, and the values of an answer.

import { Refused } from "./errors.mjs";

export const MOST_BYTES = 4096; // of a line
const NAME = /^[a-z][a-z0-9_]{0,31}$/;
const LITERAL = / ?(?:(-?\d+)|"((?:[^"\\]|\\.)*)")/gy;
const ESCAPE = /["\\\n]/g;
const ESCAPED = { '"': '\\"', "\\": "\\\\", "\n": "\\n" };

/** A name, if it is one. What isn't is never sent. */
export function checked(name) {
  if (typeof name === "string" && NAME.test(name)) return name;
  throw new Refused(`not a name: ${name}`, "", 1);
}

/** A value as a literal of the line protocol. */
export function spell(value) {
  if (typeof value === "bigint") return value.toString();
  if (typeof value === "number") {
    if (!Number.isSafeInteger(value)) throw new TypeError(`not an integer that a number holds exactly: ${value}`);
    return String(value);
  }
  if (typeof value !== "string") throw new TypeError(`a value is a number, a bigint or a string: ${value}`);
  if (/\p{Surrogate}/u.test(value)) throw new TypeError("a text with half a character has no UTF-8");
  return `"${value.replace(ESCAPE, (character) => ESCAPED[character])}"`;
}

/** A command's line: its word, a name and values. */
export function spellLine(word, name, values) {
  return fitting([word, checked(name), ...values.map(spell)].join(" "));
}

/** A query's text on one line: line ends and tabs outside its texts become spaces. */
export function onOneLine(text) {
  return text.replace(/"(?:[^"\\]|\\.)*"|[\t\r\n]+/g, (part) => (part[0] === '"' ? part : " ")).trim();
}

/** A line, if the server would read it: a longer one would end the session, and a line end would begin another. */
export function fitting(line) {
  if (line.includes("\n")) throw new TypeError("a command is one line");
  const size = Buffer.byteLength(line);
  if (size <= MOST_BYTES) return line;
  throw new Refused(`a line of ${size} bytes, and ${MOST_BYTES} are the most`, line, 1);
}

function unescaped(text) {
  return text.includes("\\") ? text.replace(/\\(.)/g, (_, character) => (character === "n" ? "\n" : character)) : text;
}

function integer(digits) {
  const number = Number(digits);
  return Number.isSafeInteger(number) ? number : BigInt(digits);
}

/** The values of an answer, from the text of its literals. */
export function readValues(text) {
  const values = [];
  LITERAL.lastIndex = 0;
  while (LITERAL.lastIndex < text.length) {
    const found = LITERAL.exec(text);
    if (found === null) throw new Error(`not an answer: ${text}`);
    values.push(found[1] === undefined ? unescaped(found[2]) : integer(found[1]));
  }
  return values;
}
