// Performs steps with the client for Node: a step a line on standard input, as `node.py` writes it, and an outcome a line.

import readline from "node:readline";

import * as djq from "../../clients/node/lib/index.mjs";

const SECONDS = 20;
const address = { host: "127.0.0.1", port: Number(process.argv[2]), timeout: SECONDS * 1000 };
const sessions = new Map();
const named = new Map(); // cursors and live sets

const isBig = (value) => value !== null && typeof value === "object" && typeof value.int === "string";
const read = (text) => JSON.parse(text, (_, value) => (isBig(value) ? BigInt(value.int) : value));
const write = (value) => JSON.stringify(value, (_, part) => (typeof part === "bigint" ? { int: String(part) } : part));

async function session(name) {
  if (!sessions.has(name)) sessions.set(name, await djq.connect(address));
  return sessions.get(name);
}

async function until(set, count) {
  while (set.answers.size < count) await set.next({ timeout: SECONDS * 1000 });
  return [...set.answers];
}

const own = {
  long: (server, size) => server.add("r", "x".repeat(size)),
  many: (server, relation, count) => server.load(relation, Array.from({ length: count }, (_, place) => [place, "t"])),
  last: (_, name, count) => until(named.get(name), count),
  transaction: (server, ...lines) =>
    server.transaction((change) => lines.forEach(([name, ...given]) => change[name](...given))),
  cursor: async (server, name, query) => void named.set(name, await server.cursor(query)),
  page: (_, name, count) => named.get(name).next(count),
  shut: async (_, name) => void (await named.get(name).close()),
  live: async (server, name, query, settings) => {
    named.set(name, await server.live(query, settings));
    return [...named.get(name).answers];
  },
  next: (_, name) => named.get(name).next({ timeout: SECONDS * 1000 }),
  quiet: (_, name) => named.get(name).next({ timeout: 200 }),
  kept: (_, name) => [...named.get(name).answers],
  delta: (server, query) => server.nextChange(query, { timeout: SECONDS * 1000 }),
};

async function perform(what, values, name) {
  const server = await session(name);
  const result = await (own[what] ?? ((_, ...rest) => server[what](...rest)))(server, ...values);
  return { gives: result ?? null };
}

function failed(error) {
  if (error instanceof djq.SomeRefused) return { refused: error.first.map((one) => one.number), sent: error.sent };
  if (error instanceof djq.Refused) return { refused: error.number, words: error.words, edges: error.edges };
  if (error instanceof djq.Stale) return { stale: error.relation, seq: error.seq };
  if (error instanceof djq.DjqError) return { ended: true };
  if (error instanceof TypeError) return { wrong: true };
  throw error;
}

for await (const line of readline.createInterface({ input: process.stdin })) {
  const [what, values, name] = read(line);
  console.log(write(await perform(what, values, name).catch(failed)));
}
process.exit(0);
