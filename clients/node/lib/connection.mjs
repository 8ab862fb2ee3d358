// A connection moves the bytes of one session, and has a method for each command.

import net from "node:net";

import { Disconnected, Refused, SomeRefused } from "./errors.mjs";
import { checked, fitting, onOneLine, readValues, spellLine } from "./lines.mjs";
import { listWhole } from "./listing.mjs";
import { Live } from "./live.mjs";
import { Protocol, READ, valuesOf } from "./protocol.mjs";
import { Queue } from "./queue.mjs";
import { Schema } from "./schema.mjs";
import { Signal } from "./signal.mjs";

export const MOST_ANSWERS = 1000; // of one `next`
export const MOST_HELD = 65536; // lines of a transaction
const MOST_DUE = 2000; // replies that may be due before further commands wait: the server ends a session at 1 MB of them
const ROWS_AT_ONCE = 500; // of a load
const KEEPALIVE = 30_000;

/** Connects to a server. `timeout` is in milliseconds, for connecting and for each reply. */
export function connect({ host = "127.0.0.1", port = 7007, timeout = 0 } = {}) {
  return new Promise((resolve, reject) => {
    const socket = net.connect({ host, port, noDelay: true });
    const failed = (error) => {
      socket.destroy();
      reject(new Disconnected(error.message || error.code));
    };
    const timer = timeout > 0 ? setTimeout(failed, timeout, new Error("connecting timed out")) : null;
    socket.once("error", failed);
    socket.once("connect", () => {
      clearTimeout(timer);
      socket.off("error", failed);
      socket.setKeepAlive(true, KEEPALIVE);
      resolve(new Connection(socket, { host, port, timeout }));
    });
  });
}

/** One session of a server. Each method sends one command, and its promise has the reply, or the refusal. */
export class Connection {
  constructor(socket, address) {
    this.address = address;
    this.schema = new Schema(); // the names of columns
    this.heard = Date.now(); // when bytes arrived last
    this.ondelta = null; // is called with a delta before those are queued that `nextChange` returns
    this.onend = null; // is called with the error that ended the session
    this._socket = socket;
    this._protocol = new Protocol((query, change) => this._delta(query, change));
    this._queue = new Queue(); // what isn't sent yet: see `_together`
    this._scheduled = false; // whether what is queued will be sent
    this._listings = Promise.resolve(); // settled once the last listing is over: they share a cursor's name
    this._names = 0;
    this._watched = new Map(); // of each watched query the changes that nobody has read, and who waits for one
    this._timer = null;
    this._lost = false;
    this._listen();
  }

  get ended() {
    return this._protocol.ended;
  }

  /** Closes the connection; the server drops its cursors and watches. */
  close() {
    this._lose(new Disconnected("the connection was closed"));
  }

  // Commands

  /** Makes a relation, of types in order, or of an object of each column's name and type. */
  relation(name, ...types) {
    const named = types.length === 1 && typeof types[0] === "object" ? types[0] : null;
    const kinds = named === null ? types : Object.values(named);
    const line = fitting(["rel", checked(name), ...kinds].join(" "));
    if (named !== null) this.schema.columns(name, ...Object.keys(named));
    return this._say(line, READ.ok);
  }

  /** Names all columns of a relation, in their order, for queries that name them. Nothing is sent. */
  columns(relation, ...names) {
    this.schema.columns(relation, ...names);
  }

  add(relation, ...values) {
    return this._say(spellLine("add", relation, values), READ.added);
  }

  delete(relation, ...values) {
    return this._say(spellLine("del", relation, values), READ.removed);
  }

  query(text) {
    return this._say(fitting(`query ${onOneLine(this.schema.spell(text))}`), READ.steps);
  }

  union(name, ...members) {
    return this._say(fitting(["union", checked(name), ...members.map(checked)].join(" ")), READ.steps);
  }

  drop(query) {
    return this._say(spellLine("drop", query, []), READ.ok);
  }

  has(query, ...values) {
    return this._say(spellLine("has", query, values), READ.has);
  }

  explain(query) {
    return this._say(spellLine("explain", query, []), READ.tree);
  }

  shape(query) {
    return this._say(spellLine("shape", query, []), READ.shape);
  }

  quit() {
    return this._say("quit", READ.bye);
  }

  stop() {
    return this._say("stop", READ.bye);
  }

  /** Asks for a reply. */
  async ping() {
    try {
      await this._say("close ping", READ.ok);
    } catch (error) {
      if (!(error instanceof Refused)) throw error;
    }
  }

  // Answers

  async cursor(query) {
    this._names += 1;
    const name = `c${this._names}`;
    await this._say(spellLine("open", name, []) + ` ${checked(query)}`, READ.ok);
    return new Cursor(this, name);
  }

  /** The answers, page by page. Throws `Stale` if rows change meanwhile. */
  async *answers(query, page = MOST_ANSWERS) {
    const cursor = await this.cursor(query);
    try {
      for (;;) {
        const { answers, last } = await cursor.next(page);
        yield* answers;
        if (last) return;
      }
    } finally {
      if (this.ended === null) await cursor.close();
    }
  }

  /** All answers of one moment, also while rows change. */
  async snapshot(query, { within } = {}) {
    const listing = this._listings.then(() => listWhole(this, checked(query), { within }));
    this._listings = listing.catch(() => {});
    return Array.from(await listing, readValues);
  }

  /** The answers, kept up to date over a connection of their own. */
  live(query, settings = {}) {
    return Live.open(this.address, checked(query), settings);
  }

  // Watches

  async watch(query) {
    const seq = await this._say(spellLine("watch", query, []), READ.watch);
    if (!this._watched.has(query)) this._watched.set(query, { changes: new Queue(), signal: new Signal() });
    return seq;
  }

  async unwatch(query) {
    await this._say(spellLine("unwatch", query, []), READ.ok);
    this._watched.get(query)?.signal.wake();
    this._watched.delete(query);
  }

  /** The next change of a watched query; null after so many milliseconds without one. */
  async nextChange(query, { timeout } = {}) {
    const watched = this._watched.get(query);
    if (watched === undefined) throw new Error(`not watched: ${query}`);
    if (watched.changes.length === 0 && this.ended === null) await watched.signal.wait(timeout);
    const change = watched.changes.shift();
    if (change === undefined && this.ended !== null) throw this.ended;
    return change === undefined ? null : { seq: change.seq, came: valuesOf(change.came), went: valuesOf(change.went) };
  }

  // Many at once

  /**
   * One change, or none: `fill` calls `add`, `delete` and `update` of what it is given. Gives `{seq, rows}`. A row that is
   * deleted has to be present then, else all is refused with number 19.
   */
  async transaction(fill) {
    const lines = [];
    const filled = fill({
      add: (relation, ...values) => void lines.push(spellLine("add", relation, values)),
      delete: (relation, ...values) => void lines.push(spellLine("del", relation, values)),
      update: (relation, old, row) =>
        void lines.push(...[spellLine("del", relation, old), spellLine("add", relation, row)]),
    });
    if (filled instanceof Promise) await filled; // else it is sent before the commands after it
    if (lines.length > MOST_HELD) {
      throw new RangeError(`${lines.length} lines, and a transaction has ${MOST_HELD} at most`);
    }
    return this._carryOut(lines);
  }

  /** Inserts each of many rows. Gives how many weren't present; at the first refusal no further rows are sent. */
  async load(relation, rows) {
    let [sent, changed, some] = [0, 0, []];
    const refused = [];
    const settle = async () => {
      for (const reply of await Promise.allSettled(some)) {
        if (reply.status === "fulfilled") changed += reply.value.changed ? 1 : 0;
        else if (reply.reason instanceof Refused) refused.push(reply.reason);
        else throw reply.reason;
      }
      sent += some.length;
      some = [];
    };
    for await (const row of rows) {
      some.push(this.add(relation, ...row));
      if (some.length === ROWS_AT_ONCE) await settle();
      if (refused.length > 0) break;
    }
    await settle();
    if (refused.length > 0) throw new SomeRefused(sent, refused);
    return changed;
  }

  // Inside

  /** Sends a transaction of these lines in one write. `done` names their number: if one is refused, none is carried out. */
  async _carryOut(lines) {
    const all = ["batch", ...lines, `done ${lines.length}`];
    const replies = await Promise.allSettled(this._together(all, [READ.ok, ...lines.map(() => READ.held), READ.done]));
    const done = replies.pop();
    const refused = replies.map((reply) => reply.reason).filter((reason) => reason instanceof Refused);
    if (done.status === "rejected") {
      if (refused.length > 0 && done.reason instanceof Refused) throw new SomeRefused(lines.length, refused);
      throw done.reason;
    }
    return done.value;
  }

  /** Sends a command. */
  _say(line, read) {
    return this._together([line], [read])[0];
  }

  /**
   * Sends commands in one write, and gives a promise for each. With `holds` none of the replies is parsed before all have
   * arrived. `lead` is how many blank lines are sent before them, which aren't answered.
   */
  _together(lines, readers, { holds = false, handlers = [], lead = 0 } = {}) {
    if (this.ended !== null) return lines.map(() => Promise.reject(this.ended));
    const commands = [];
    const replies = lines.map((line, at) => new Promise((resolve, reject) => {
      const first = handlers[at] ?? (() => {});
      commands.push({ line, read: readers[at], resolve: (result) => resolve(first(result) ?? result), reject });
    }));
    for (const reply of replies) reply.catch(() => {}); // a refusal that nobody awaits yet doesn't end the process
    this._queue.push({ commands, holds, lead });
    this._schedule();
    return replies;
  }

  /** Sends what is queued once the caller's own code has run: many commands are one write then. */
  _schedule() {
    if (this._scheduled) return;
    this._scheduled = true;
    queueMicrotask(() => {
      this._scheduled = false;
      this._flush();
    });
  }

  _flush() {
    const text = [];
    while (this.ended === null) {
      const next = this._queue.first;
      if (next === undefined || this._protocol.due >= MOST_DUE || (next.holds && this._protocol.due > 0)) break;
      this._queue.shift();
      for (let blank = 0; blank < next.lead; blank += 1) text.push("");
      for (const { line, read, resolve, reject } of next.commands) {
        text.push(line);
        this._protocol.expect(line, read, resolve, reject);
      }
      if (next.holds) this._protocol.hold();
    }
    if (text.length === 0) return;
    this._socket.write(`${text.join("\n")}\n`);
    this._arm();
  }

  _listen() {
    const socket = this._socket;
    socket.on("data", (piece) => {
      this.heard = Date.now();
      this._feed(piece);
    });
    socket.on("error", (error) => this._lose(new Disconnected(error.message)));
    socket.on("close", () => this._lose(new Disconnected("the server closed the connection")));
  }

  _feed(piece) {
    try {
      this._protocol.feed(piece);
    } catch (error) {
      this._lose(new Disconnected(`the server sent what isn't of the line protocol: ${error.message}`));
    }
    if (this.ended !== null) {
      this._lose(this.ended);
      return;
    }
    this._arm();
    this._flush();
  }

  /** While replies are due the server has `timeout` to send bytes. */
  _arm() {
    if (this.address.timeout <= 0) return;
    clearTimeout(this._timer);
    if (this._protocol.due === 0) return;
    const late = new Disconnected(`no reply in ${this.address.timeout} ms`);
    this._timer = setTimeout(() => this._lose(late), this.address.timeout);
  }

  _delta(query, change) {
    if (this.ondelta !== null) {
      this.ondelta(query, change);
      return;
    }
    const watched = this._watched.get(query);
    if (watched === undefined) return;
    watched.changes.push(change);
    watched.signal.wake();
  }

  _lose(error) {
    if (this._lost) return;
    this._lost = true;
    clearTimeout(this._timer);
    this._protocol.release(); // what the server sent before may say why it ended
    this._protocol.lose(error);
    for (const unsent of this._queue.clear()) {
      for (const command of unsent.commands) command.reject(this.ended);
    }
    for (const watched of this._watched.values()) watched.signal.wake();
    this._socket.destroy();
    this.onend?.(this.ended);
  }
}

/** A place in the answers of a query. It is stale once rows change that the query reads. */
export class Cursor {
  constructor(connection, name) {
    this._connection = connection;
    this._name = name;
  }

  async next(count = MOST_ANSWERS) {
    const page = await this._connection._say(`next ${this._name} ${count}`, READ.page);
    return { answers: valuesOf(page.answers), last: page.last };
  }

  close() {
    return this._connection._say(`close ${this._name}`, READ.ok);
  }
}
