// The lines of one session, without a socket: commands are queued, bytes are fed, and replies and deltas result.

import { Ended, NotAdmitted, Refused, Stale } from "./errors.mjs";
import { readValues } from "./lines.mjs";
import { Queue } from "./queue.mjs";

const LF = 10;
// the first bytes of lines that end no reply: answers, deltas, and nodes or members of explain
const INNER = new Set(["=", "+", "-"].map((sign) => sign.charCodeAt(0)));
const AT = Buffer.from("at ");
const NODE = Buffer.from("n ");
const MEMBER = Buffer.from("m ");

/** The error that a reply refuses a command with, if it does. */
export function refusal(reply, line) {
  if (reply.startsWith("err ")) return new Refused(reply, line, Number(reply.split(" ")[1]));
  if (reply.startsWith("no cyclic") || reply.startsWith("no connex")) return new NotAdmitted(reply, line);
  if (reply.startsWith("stale ")) {
    const [, , relation, seq] = reply.split(" ");
    return new Stale(relation, Number(seq));
  }
  return null;
}

/** Reads replies of one line that begin with these words, and gives the numbers after them. */
function numbers(words, make) {
  return (lines) => {
    if (lines[0] !== words && !lines[0].startsWith(`${words} `)) return undefined;
    return make(...lines[0].slice(words.length + 1).split(" ").map(Number));
  };
}

function either(...readers) {
  return (lines) => {
    for (const read of readers) {
      const result = read(lines);
      if (result !== undefined) return result;
    }
    return undefined;
  };
}

const changed = (words, last) => numbers(words, (seq, copies) => ({ seq, copies, changed: copies === last }));

/** What reads each reply, once its last line has arrived. */
export const READ = {
  ok: numbers("ok", () => null),
  bye: numbers("bye", () => null),
  steps: either(numbers("ok query", (steps) => steps), numbers("ok union", (steps) => steps)),
  added: changed("ok added", 1),
  removed: either(changed("ok removed", 0), numbers("ok absent", (seq) => ({ seq, copies: 0, changed: false }))),
  held: numbers("ok held", (held) => held),
  done: numbers("ok done", (seq, rows) => ({ seq, rows })),
  watch: numbers("ok watch", (seq) => seq),
  has: either(numbers("yes", () => true), numbers("no", () => false)),
  shape: (lines) => (["flat", "linear", "union"].includes(lines[0]) ? lines[0] : undefined),
  tree: (lines) => (lines.at(-1) === "end" ? lines.slice(0, -1) : undefined),
  page: (lines) => {
    if (lines.at(-1) !== "end" && lines.at(-1) !== "more") return undefined;
    return { answers: lines.slice(0, -1).map((line) => line.slice(2)), last: lines.at(-1) === "end" };
  },
};

/** Whether a line is within a reply, and doesn't end it. */
function isInner(line) {
  return line[0] === "=" || line.startsWith("n ") || line.startsWith("m ");
}

/**
 * One session's lines. `delta` is called with each query's delta as its last line is read, between the replies before and
 * after it: so the order of deltas and replies is the server's.
 */
export class Protocol {
  constructor(delta) {
    this.ended = null; // the error that ended the session
    this.due = 0; // commands without a reply
    this._delta = delta;
    this._rest = Buffer.alloc(0); // bytes after the last line end
    this._held = null; // pieces that wait until so many replies are there
    this._pending = new Queue();
    this._lines = []; // of the reply that is read
    this._open = new Map(); // deltas without their last line
  }

  /** A command was sent. `resolve` and `reject` are called as its reply is read, before any later line is. */
  expect(line, read, resolve, reject) {
    this._pending.push({ line, read, resolve, reject });
    this.due += 1;
  }

  /** Bytes wait from now on, until all replies that are due now have arrived. */
  hold() {
    this._held = { pieces: [this._rest], replies: 0, due: this.due, previous: LF };
    this._rest = Buffer.alloc(0);
    if (this._held.pieces[0].length > 0) this._count(this._held.pieces[0]);
  }

  /** Bytes of the server. */
  feed(piece) {
    if (this._held === null) {
      this._read(piece);
      return;
    }
    this._held.pieces.push(piece);
    this._count(piece);
    if (this._held.replies >= this._held.due && this._held.previous === LF) this.release();
  }

  /** Bytes that wait are read. */
  release() {
    if (this._held === null) return;
    const whole = Buffer.concat(this._held.pieces);
    this._held = null;
    this._read(whole);
  }

  /** Nothing arrives any more: each command that is due fails. */
  lose(error) {
    this.ended ??= error;
    this.due = 0;
    for (const command of this._pending.clear()) command.reject(this.ended.about?.(command.line) ?? this.ended);
  }

  // Inside

  /** Counts the replies that begin in a piece, by the first byte of each line: to parse them would take longer. */
  _count(piece) {
    const held = this._held;
    for (let at = 0; at < piece.length; ) {
      if (held.previous === LF && !this._isPart(piece, at)) held.replies += 1;
      const end = piece.indexOf(LF, at);
      held.previous = end < 0 ? 0 : LF;
      at = end < 0 ? piece.length : end + 1;
    }
  }

  _isPart(piece, at) {
    if (INNER.has(piece[at])) return true;
    const front = piece.subarray(at, at + 3);
    const part = front.subarray(0, 2);
    return front.equals(AT) || part.equals(NODE) || part.equals(MEMBER);
  }

  _read(piece) {
    const bytes = this._rest.length > 0 ? Buffer.concat([this._rest, piece]) : piece;
    const end = bytes.lastIndexOf(LF) + 1;
    this._rest = bytes.subarray(end);
    if (end === 0) return;
    for (const line of bytes.toString("utf8", 0, end - 1).split("\n")) this._line(line);
  }

  _line(line) {
    if (this.ended !== null) return;
    const [word, name, number] = line.split(" ", 3);
    if (word === "+" || word === "-") this._part(name)[word].push(line.slice(word.length + 1 + name.length + 1));
    else if (word === "at") this._close(name, Number(number));
    else if (word === "end" && name !== undefined) this.lose(new Ended(name));
    else this._reply(line);
  }

  _part(query) {
    let part = this._open.get(query);
    if (part === undefined) this._open.set(query, (part = { "+": [], "-": [] }));
    return part;
  }

  _close(query, seq) {
    const part = this._part(query);
    this._open.delete(query);
    this._delta(query, { seq, came: part["+"], went: part["-"] });
  }

  _reply(line) {
    const command = this._pending.first;
    if (command === undefined) throw new Error(`no reply is due: ${line}`);
    this._lines.push(line);
    if (isInner(line)) return;
    const lines = this._lines;
    this._lines = [];
    this._pending.shift();
    this.due -= 1;
    const error = refusal(line, command.line);
    const result = error === null ? command.read(lines) : undefined;
    if (error !== null) command.reject(error);
    else if (result === undefined) command.reject(new Error(`not a reply to ${command.line}: ${line}`));
    else command.resolve(result);
  }
}

/** The answers of lines as values. */
export function valuesOf(texts) {
  return texts.map(readValues);
}
