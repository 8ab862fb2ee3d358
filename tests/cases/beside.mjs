// Lists a query again and again while another session inserts and deletes one row: node beside.mjs PORT.

import * as djq from "../../clients/node/lib/index.mjs";

const server = await djq.connect({ port: Number(process.argv[2]), timeout: 20_000 });
const live = await server.live("q");
const sizes = new Set([live.answers.size]);
for (let turn = 0; turn < 20; turn += 1) {
  sizes.add((await server.snapshot("q")).length);
  await live.next({ timeout: 20_000 });
  sizes.add(live.answers.size);
}
const holds = [...sizes].every((size) => size === 3000 || size === 3001);
console.log(holds ? "3000 or 3001 each time" : [...sizes].join(" "));
process.exit(0);
