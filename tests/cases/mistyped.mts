// What tsc refuses: each line below the first.

import * as djq from "djq";
const live = await djq.live("q", { reconect: true });
const server = await djq.connect({ hostname: "127.0.0.1" });
await server.relation("r", "integer");
await server.add("r", true);
