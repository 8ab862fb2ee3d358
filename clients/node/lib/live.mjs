// Answers that are kept up to date: a listing and the deltas after it, without a gap.

import { connect } from "./connection.mjs";
import { Disconnected, DjqError, Ended, LiveEnded, Overtaken, Refused } from "./errors.mjs";
import { checked, readValues, spell } from "./lines.mjs";
import { FIRST_PAGES, MOST_PAGES, listWhole } from "./listing.mjs";
import { Queue } from "./queue.mjs";
import { Signal } from "./signal.mjs";

const FIRST_PAUSE = 50; // milliseconds before a failed start is tried again; each further pause is twice as long
const LONGEST_PAUSE = 5000;

/** The answers of a live set: a set of arrays, each of which is present once. */
export class Answers {
  constructor() {
    this._texts = new Set();
  }

  get size() {
    return this._texts.size;
  }

  has(...values) {
    return this._texts.has(values.map(spell).join(" "));
  }

  *[Symbol.iterator]() {
    for (const text of this._texts) yield readValues(text);
  }

  /** Applies a delta, and gives it as values. */
  _apply({ seq, came, went }) {
    for (const text of went) this._texts.delete(text);
    for (const text of came) this._texts.add(text);
    return { seq, came: came.map(readValues), went: went.map(readValues), restarted: false, lost: false };
  }

  /** Replaces all by a new listing, and gives the difference. */
  _replace(texts) {
    const came = Array.from(texts).filter((text) => !this._texts.has(text));
    const went = Array.from(this._texts).filter((text) => !texts.has(text));
    this._texts = texts;
    return { came: came.map(readValues), went: went.map(readValues) };
  }
}

/** Whether a start that failed so may succeed later: the server isn't there, or isn't yet what it was. */
function mayPass(error) {
  if (error instanceof Refused) return error.number === 4 || error.number === 12;
  return error instanceof Disconnected || error instanceof Ended || error instanceof Overtaken;
}

/** The answers of a query, kept up to date over a connection of their own. With `reconnect` the server needn't be there yet. */
export function live(query, { host = "127.0.0.1", port = 7007, timeout = 0, ...settings } = {}) {
  return Live.open({ host, port, timeout }, checked(query), settings);
}

/**
 * The answers of one query. `answers` and `seq` change only as `next` or `changes` return a change, so a change is always in
 * `answers` when it is returned.
 */
export class Live {
  /** Connects, lists and watches. With `reconnect` it waits until that succeeds. */
  static async open(address, query, settings) {
    const own = new Live(address, query, settings);
    await own._start();
    own._seen(own._queue.shift());
    return own;
  }

  constructor(address, query, { reconnect = false, within, ping = 0 } = {}) {
    this.query = query;
    this.answers = new Answers();
    this.seq = 0;
    this._address = ping > 0 && address.timeout <= 0 ? { ...address, timeout: ping } : address;
    this._settings = { reconnect, within, ping };
    this._queue = new Queue(); // listings and deltas that weren't returned yet
    this._connection = null;
    this._most = MOST_PAGES;
    this._signal = new Signal();
    this._error = null;
    this._closed = false;
    this._pinging = null;
  }

  /** Stops; the answers stay as they are. */
  close() {
    this._closed = true;
    clearInterval(this._pinging);
    this._connection?.close();
    this._signal.wake();
  }

  /** The next change, once it is in `answers`; null after so many milliseconds without one, or once this is closed. */
  async next({ timeout } = {}) {
    const until = timeout === undefined ? Infinity : Date.now() + timeout;
    while (this._queue.length === 0) {
      if (this._closed) return null;
      if (this._error !== null) throw this._error;
      const left = until - Date.now();
      if (left < 0) return null;
      await this._signal.wait(left === Infinity ? left : left + 1);
    }
    return this._seen(this._queue.shift());
  }

  /** Each change as it arrives, once it is in `answers`. */
  async *changes(settings) {
    for (;;) {
      const change = await this.next(settings);
      if (change === null) return;
      yield change;
    }
  }

  [Symbol.asyncIterator]() {
    return this.changes();
  }

  // Inside

  _seen(item) {
    if (item.texts === undefined) {
      this.seq = item.seq;
      return this.answers._apply(item);
    }
    const lost = item.seq < this.seq;
    this.seq = item.seq;
    return { seq: item.seq, ...this.answers._replace(item.texts), restarted: true, lost };
  }

  _put(item) {
    this._queue.push(item);
    this._signal.wake();
  }

  /** Starts, and starts again if that failed and may succeed later. */
  async _start() {
    for (let pause = FIRST_PAUSE; !this._closed; pause = Math.min(2 * pause, LONGEST_PAUSE)) {
      try {
        await this._try();
        return;
      } catch (error) {
        this._connection?.close();
        if (!(error instanceof DjqError)) throw error;
        const slow = error instanceof Ended && error.reason === "slow" && this._most > FIRST_PAGES;
        if (slow) this._most = Math.max(FIRST_PAGES, Math.floor(this._most / 2));
        if (!slow && !(this._settings.reconnect && mayPass(error))) throw new LiveEnded(this.query, error);
      }
      await new Promise((resolve) => setTimeout(resolve, pause));
    }
  }

  /** One start: connects, watches, and lists. Deltas after the listing's last line are queued as they arrive. */
  async _try() {
    const connection = (this._connection = await connect(this._address));
    let [listed, seq] = [false, 0];
    connection.ondelta = (query, change) => {
      if (listed) this._put(change);
      else seq = change.seq;
    };
    const whole = (texts) => {
      listed = true;
      this._put({ texts, seq });
    };
    const started = await connection.watch(this.query);
    seq = Math.max(seq, started); // a delta may have been read before this line runs
    await listWhole(connection, this.query, { within: this._settings.within, most: this._most, whole });
    if (connection.ended !== null) throw connection.ended;
    connection.onend = (error) => this._ended(error);
    this._ping();
    if (this._closed) connection.close();
  }

  /** The session ended: a new one begins, or `next` throws why there is none. */
  _ended(error) {
    clearInterval(this._pinging);
    if (this._closed) return;
    const failed = (reason) => {
      this._error = reason;
      this._signal.wake();
    };
    if (this._settings.reconnect) this._start().catch(failed);
    else failed(new LiveEnded(this.query, error));
  }

  /** Asks for a reply whenever nothing has arrived for so long. */
  _ping() {
    clearInterval(this._pinging);
    if (this._settings.ping <= 0) return;
    this._pinging = setInterval(() => {
      const silent = Date.now() - this._connection.heard >= this._settings.ping;
      if (silent) this._connection.ping().catch(() => {});
    }, this._settings.ping);
    this._pinging.unref();
  }
}
