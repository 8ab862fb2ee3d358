// All answers of a query at one moment, also while rows change.
//
// The server reads at most 8,192 bytes of a session at once, and runs all lines that it has read before it reads again, one
// line of each session in turn. So a cursor is opened and asked for many pages in one write, and the replies are parsed
// once all have arrived: the server ends a session that reads more slowly than it lists. A first write asks for a few pages;
// the next one asks for all that a write can return. After a listing was overtaken the next write begins with blank lines:
// changes that were read together with it are run between these, and none is left as the cursor is opened.

import { Overtaken, Stale } from "./errors.mjs";
import { READ } from "./protocol.mjs";

export const FIRST_PAGES = 8;
export const MOST_PAGES = 670; // as many lines as are read at once
const WITHIN = 60_000;
const LONGEST_PAUSE = 500;
const CURSOR = "l"; // a name that no other cursor of a connection has
const READ_BYTES = 8192; // that are read at once
const [FIRST_LEAD, MOST_LEAD] = [128, 2048]; // blank lines before a try that follows one that was overtaken

const pauseFor = (milliseconds) => new Promise((resolve) => setTimeout(resolve, milliseconds));

/**
 * The texts of all answers, as a set. `whole` is called with the set as its last line is read: deltas before that line are in
 * the set, and later ones aren't.
 */
export async function listWhole(connection, query, { within = WITHIN, whole = () => {}, most = MOST_PAGES } = {}) {
  const until = Date.now() + within;
  const listing = new Listing(query, whole);
  for (let [pages, pause] = [Math.min(FIRST_PAGES, most), 0]; ; pages = most) {
    await listing.turn(connection, pages);
    if (listing.last || listing.stale || Date.now() > until) await connection._say(`close ${CURSOR}`, READ.ok);
    if (listing.last) return listing.texts;
    if (Date.now() > until) throw new Overtaken(`the answers of ${query} weren't listed in ${within} ms`);
    if (!listing.stale) continue;
    if (pause > 0) await pauseFor(pause);
    pause = Math.min(2 * pause + 1, LONGEST_PAUSE);
  }
}

/** A listing in progress: each turn is one write, and its replies. */
class Listing {
  constructor(query, whole) {
    this.texts = new Set();
    this.last = false;
    this.stale = true; // whether the next turn opens a cursor
    this.lead = 0; // blank lines before the next turn
    this._query = query;
    this._whole = whole;
  }

  async turn(connection, most) {
    const page = `next ${CURSOR} 1000`;
    const open = `open ${CURSOR} ${this._query}`;
    const room = Math.floor((READ_BYTES - this.lead - open.length - 2) / (page.length + 1));
    const pages = this.lead > 0 ? Math.min(most, room) : most;
    const lines = Array(pages).fill(page);
    const lead = this.stale ? this.lead : 0;
    const readers = Array(pages).fill(READ.page);
    const handlers = Array(pages).fill((page) => this._page(page));
    if (this.stale) {
      this.stale = false;
      this.texts.clear();
      lines.unshift(open);
      readers.unshift(READ.ok);
      handlers.unshift(() => {});
    }
    const replies = await Promise.allSettled(connection._together(lines, readers, { holds: true, handlers, lead }));
    for (const { reason } of replies.filter((reply) => reply.status === "rejected")) {
      if (!(reason instanceof Stale)) throw reason; // the first refusal is the cause of those after it
      this.stale = true;
    }
    if (this.stale) this.lead = Math.min(MOST_LEAD, Math.max(FIRST_LEAD, 4 * this.lead));
  }

  /** Runs as the page is read, before any later line is. */
  _page({ answers, last }) {
    if (this.last) return;
    for (const text of answers) this.texts.add(text);
    if (!last) return;
    this.last = true;
    this._whole(this.texts);
  }
}
