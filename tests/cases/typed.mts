// What tsc accepts of the client's types.

import * as djq from "djq";

const server: djq.Connection = await djq.connect({ host: "127.0.0.1", port: 7007, timeout: 1000 });
await server.relation("r", "int", "text");
const steps: number = await server.query("q(x,y) <- r(x,y)");
await server.relation("lines", { number: "int", item: "text" });
server.columns("r", "number", "name");
const spelled: string = server.schema.spell('p(n) <- lines(number: n, item: "bolt")');
const added: djq.Update = await server.add("r", 1n, "a");
const done: djq.Done = await server.transaction((change) => change.add("r", 2, "b"));
await server.transaction(async (change: djq.Transaction) => {
  change.update("r", [2, "b"], [2n, "c"]);
  change.delete("r", 2, "c");
});
const answers: djq.Answer[] = await server.snapshot("q", { within: 1000 });
for await (const answer of server.answers("q")) answers.push(answer);
const live: djq.Live = await djq.live("q", { port: 7007, reconnect: true, ping: 1000 });
for await (const change of live) {
  const came: djq.Value[][] = change.came;
  if (change.lost || live.answers.has(...came[0])) live.close();
}
try {
  await server.add("r", steps + added.seq + done.rows, spelled);
} catch (error) {
  if (error instanceof djq.NotAdmitted) console.log(error.edges[0][0]);
  else if (error instanceof djq.Refused) console.log(error.number, error.cure);
}
