// The answers of a query, as they change: node examples/live.mjs QUERY [HOST:PORT]
//
// It may start before the server does, and goes on after the server was restarted: what changed meanwhile is one change.

import { DjqError, live } from "../lib/index.mjs";

const [query, address = "127.0.0.1:7007"] = process.argv.slice(2);
if (query === undefined) {
  console.error("usage: live.mjs QUERY [HOST:PORT]");
  process.exit(1);
}
const [host, port] = [address.slice(0, address.lastIndexOf(":")), Number(address.slice(address.lastIndexOf(":") + 1))];
const text = (answer) => answer.join(" ");

try {
  const watched = await live(query, { host, port, reconnect: true, ping: 10_000 });
  for (const answer of watched.answers) console.log(`  ${text(answer)}`);
  for await (const change of watched) {
    for (const answer of change.went) console.log(`- ${text(answer)}`);
    for (const answer of change.came) console.log(`+ ${text(answer)}`);
    console.log(`after change ${change.seq}${change.restarted ? ", connected again" : ""}: ${watched.answers.size} answers`);
  }
} catch (error) {
  if (!(error instanceof DjqError)) throw error;
  console.error(`live.mjs: ${error.message}`);
  process.exit(1);
}
