// The names of columns, and queries that name columns.
//
// The server knows places alone. Of a relation `lines` with the columns `order`, `line` and `price`,
// `q(o,price) <- lines(order: o, price:)` is sent as `q(o,price) <- lines(o,_,price)`. In an atom with a colon each term has
// a column's name and a colon before it, in any order; `price:` alone is `price: price`, and other columns get a `_`.

import { Refused } from "./errors.mjs";
import { checked } from "./lines.mjs";

const TEXT = '"(?:[^"\\\\]|\\\\.)*"';
const NAME = "[a-z][a-z0-9_]*";
const TEXTS = new RegExp(TEXT, "gs");
const ATOM = new RegExp(`${TEXT}|(${NAME})\\s*\\(((?:[^()"]|${TEXT})*)\\)`, "gs");
const PART = new RegExp(`(?:[^,"]|${TEXT})+|,`, "gs");
const TERM = new RegExp(`^(${NAME})\\s*:\\s*(${NAME}|_|-?[0-9]+|${TEXT})?$`, "s");

/** Names of columns that don't fit, or a query that can't be written out by them. It isn't sent. */
export class BadColumns extends Refused {
  constructor(words, why = "") {
    super(words, "", 1);
    this.cure = why;
    if (why) this.message = `${words}: ${why}`;
  }
}

/** The names of relations' columns. */
export class Schema {
  constructor() {
    this.names = new Map(); // of each relation
  }

  /** Names all columns of a relation, in their order. */
  columns(relation, ...names) {
    const twice = names.find((name, place) => names.indexOf(name) < place);
    if (twice !== undefined) throw new BadColumns(`${relation}: two columns are named ${twice}`);
    if (names.length === 0) throw new BadColumns(`${relation}: a relation has a column`);
    this.names.set(checked(relation), names.map(checked));
  }

  /** The query with a term for each column, in place of names. */
  spell(query) {
    const end = query.indexOf("<-");
    return end < 0 ? query : query.slice(0, end) + query.slice(end).replace(ATOM, (atom, ...found) => this._atom(atom, ...found));
  }

  _atom(atom, relation, inside) {
    if (relation === undefined || !inside.replace(TEXTS, "").includes(":")) return atom; // a text, or an atom by places
    const known = this.names.get(relation);
    if (known === undefined) {
      const near = nearest(relation, [...this.names.keys()]);
      throw new BadColumns(`the columns of ${relation} have no names here`, `${near}name them first, by columns`);
    }
    const terms = termsOf(relation, inside);
    for (const column of terms.keys()) {
      if (known.includes(column)) continue;
      throw new BadColumns(`${relation} has no column ${column}`, `${nearest(column, known)}it has ${known.join(", ")}`);
    }
    return `${relation}(${known.map((column) => terms.get(column) ?? "_").join(",")})`;
  }
}

function termsOf(relation, inside) {
  const terms = new Map();
  for (const part of parts(inside)) {
    const found = TERM.exec(part);
    if (found === null) throw new BadColumns(`${relation}: no column and term: '${part}'`, "beside a colon each term has a column");
    const [, column, term] = found;
    if (terms.has(column)) throw new BadColumns(`${relation}: the column ${column} is named twice`);
    terms.set(column, term ?? column);
  }
  return terms;
}

/** The parts between commas. */
function parts(inside) {
  const found = [""];
  for (const [part] of inside.matchAll(PART)) {
    if (part === ",") found.push("");
    else found[found.length - 1] = part.trim();
  }
  return found;
}

/** The question whether a name was meant that is at most two letters away. */
function nearest(name, known) {
  const [best] = known.map((one) => [distance(name, one), one]).sort(([a], [b]) => a - b);
  return best !== undefined && best[0] <= 2 ? `did you mean ${best[1]}? ` : "";
}

/** How many letters have to be put in, left out or replaced. */
function distance(one, other) {
  let row = Array.from({ length: other.length + 1 }, (_, place) => place);
  for (const letter of one) {
    const next = [row[0] + 1];
    for (let at = 1; at < row.length; at += 1) {
      next.push(Math.min(row[at] + 1, next[at - 1] + 1, row[at - 1] + (letter === other[at - 1] ? 0 : 1)));
    }
    row = next;
  }
  return row[other.length];
}
