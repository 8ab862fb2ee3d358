// A client of djq, the live join query server. README.md shows how it is used.

export { Connection, Cursor, MOST_ANSWERS, MOST_HELD, connect } from "./connection.mjs";
export {
  Disconnected, DjqError, Ended, LiveEnded, NotAdmitted, Overtaken, Refused, SomeRefused, Stale, Unanswered,
} from "./errors.mjs";
export { readValues, spell } from "./lines.mjs";
export { Answers, Live, live } from "./live.mjs";
export { BadColumns, Schema } from "./schema.mjs";
