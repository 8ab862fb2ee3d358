// What concerns the client for Node alone: node alone.mjs PORT, at a server without relations.

import assert from "node:assert/strict";
import { once } from "node:events";
import fs from "node:fs";
import net from "node:net";
import readline from "node:readline";

import * as djq from "../../clients/node/lib/index.mjs";
import { cureOf } from "../../clients/node/lib/errors.mjs";
import { Protocol, READ } from "../../clients/node/lib/protocol.mjs";

const port = Number(process.argv[2]);
const failure = (promise) => promise.then(() => assert.fail("nothing was refused"), (error) => error);

function bytesOneByOne() {
  const seen = [];
  const protocol = new Protocol((query, change) => seen.push([query, change.seq, change.came, change.went]));
  const reply = (name) => [(result) => seen.push([name, result]), (error) => seen.push([name, error.number])];
  protocol.expect("add r 1", READ.added, ...reply("added"));
  protocol.expect("next c 2", READ.page, ...reply("page"));
  protocol.expect("add s 1", READ.added, ...reply("refused"));
  const text = '+ q 1 "a b"\n- q 2 "\u4f60"\nat q 5\nok added 5 1\nat q 6\n= 1 "x"\n=\nmore\nerr 3 no relation\n';
  for (const byte of Buffer.from(text)) protocol.feed(Buffer.from([byte]));
  assert.deepEqual(seen, [
    ["q", 5, ['1 "a b"'], ['2 "\u4f60"']],
    ["added", { seq: 5, copies: 1, changed: true }],
    ["q", 6, [], []],
    ["page", { answers: ['1 "x"', ""], last: false }],
    ["refused", 3],
  ]);
  assert.equal(protocol.due, 0);
}

/** Replies that are held are parsed in order once all have arrived, however the bytes were cut. */
function heldBytes() {
  for (let size = 1; size < 40; size += 1) {
    const seen = [];
    const protocol = new Protocol((query, change) => seen.push(`at ${change.seq}`));
    for (const name of ["first", "second"]) protocol.expect(name, READ.page, (page) => seen.push(page.answers.length), assert.fail);
    protocol.hold();
    const bytes = Buffer.from("= 1\n= 2\nmore\n+ q 3\nat q 9\n= 3\nend\nat q 10\n");
    for (let at = 0; at < bytes.length; at += size) protocol.feed(bytes.subarray(at, at + size));
    assert.deepEqual(seen, [2, "at 9", 1, "at 10"], `pieces of ${size}`);
  }
}

/** The end line is the error of each command without a reply. */
async function endLines() {
  const errors = [];
  const protocol = new Protocol(() => {});
  protocol.expect("add r 1", READ.added, assert.fail, (error) => errors.push(error));
  protocol.feed(Buffer.from("end slow\n"));
  assert.deepEqual([errors[0].name, errors[0].reason, errors[0].line], ["Ended", "slow", "add r 1"]);
}

/** Commands that nobody awaits are sent in order, transactions and listings between them. */
async function inOrder(server) {
  await server.relation("many", "int");
  await server.query("all_of_many(x) <- many(x)");
  const replies = [];
  for (let place = 0; place < 5000; place += 1) replies.push(server.add("many", place));
  const both = server.transaction((change) => [5000, 5001].forEach((value) => change.add("many", value)));
  const [one, two] = [server.snapshot("all_of_many"), server.snapshot("all_of_many")];
  const after = server.add("many", 5002);
  assert.equal((await both).seq, 5001);
  assert.equal((await after).seq, 5002);
  assert.deepEqual(new Set((await Promise.all(replies)).map((reply) => reply.seq)).size, 5000);
  assert.ok((await one).length >= 5002 && (await two).length >= 5002);
}

async function refusalsHaveCures(server) {
  await server.relation("r", "int", "int");
  for (const [text, word] of [
    ["z(x) <- r(x,_), not r(_,x)", "difference"], ["z(count(x)) <- r(x,_)", "count"], ["z(x) <- r(x,_) or r(_,x)", "union"],
    ["z(x) <- r(x,y), x < y", "constant"], ["z(x) <- r(x,y), x<-5", "space"], ["z(x) <- r(X,y)", "lower case"],
  ]) {
    const error = await failure(server.query(text));
    assert.equal(error.number, 1);
    assert.ok(error.cure.includes(word) && error.message.includes(error.cure), `${text}: ${error.message}`);
  }
  for (const call of [server.add("r", 1), server.add("none", 1), server.has("none", 1), server.query("z(y) <- r(x,x)"),
    server.query("z(x,z) <- r(x,y), r(y,z)"), server.relation("r", "int")]) assert.ok((await failure(call)).cure);
}

async function valuesThatArentSent(server) {
  for (const value of [1.5, NaN, Infinity, 2 ** 53, undefined, null, true, {}, "\ud800"]) {
    assert.throws(() => server.add("r", value, 1), TypeError, String(value));
  }
  assert.deepEqual(djq.readValues(djq.spell('a "b"\\\n')), ['a "b"\\\n']);
  assert.throws(() => server.query('z(x) <- r(x,"a\nb")'), TypeError);
  const tooMany = (change) => Array(65537).fill(0).forEach(() => change.add("r", 1, 1));
  await assert.rejects(server.transaction(tooMany), RangeError);
  await assert.rejects(server.transaction(() => { throw new Error("own"); }), /own/);
  await assert.rejects(server.transaction((change) => change.update("r", [1, 1], [1, 1.5])), TypeError);
}

/** A live set ends by one sentence that names its query, and a closed one by null. */
async function endings(server) {
  await server.query("q(x) <- r(x,_)");
  const closed = await server.live("q");
  setTimeout(() => closed.close(), 50);
  assert.equal(await closed.next(), null);
  const missing = await failure(server.live("none"));
  assert.match(missing.message, /^the live set of none ended: err 4 no query/);
  const live = await server.live("q", { ping: 50 });
  assert.equal(await live.next({ timeout: 300 }), null); // pinged, and still there
  await server.stop();
  const error = await failure(live.next());
  assert.match(error.message, /^the live set of q ended: /);
  assert.ok((await failure(server.add("r", 1, 1))) instanceof djq.Disconnected);
  assert.equal((await failure(djq.connect({ port: 1 }))).name, "Disconnected");
}

/** What isn't of the protocol ends the session with an error, and not the process; a server that sends nothing times out. */
async function strangers() {
  for (const [greeting, words] of [["220 mail ready\n", /isn't of the line protocol/], ["", /no reply in 100 ms/]]) {
    const stranger = net.createServer((socket) => socket.write(greeting || " ")).listen(0, "127.0.0.1");
    await once(stranger, "listening");
    const own = await djq.connect({ port: stranger.address().port, timeout: 100 });
    await new Promise((resolve) => setTimeout(resolve, 50));
    const error = await failure(own.add("r", 1));
    assert.ok(error instanceof djq.Disconnected && words.test(error.message), error.message);
    stranger.close();
  }
}

/** A server that ends each first session as too slow, within a delta, and has other answers in the second one. */
function slowServer() {
  let sessions = 0;
  const speak = (socket, number) => (line) => {
    const [word] = line.split(" ");
    const replies = { watch: `ok watch ${number}`, open: "ok open", next: number === 1 ? "= 1\n= 2\nend" : "= 2\n= 3\nend", close: "ok" };
    socket.write(`${replies[word]}\n`);
    if (word === "close" && number === 1) setTimeout(() => socket.end("+ q 9\nend slow\n"), 50);
  };
  return net.createServer((socket) => {
    sessions += 1;
    readline.createInterface({ input: socket }).on("line", speak(socket, sessions));
  });
}

/** Without reconnection a live set ends by an error that names the query; with it the difference is one change. */
async function tooSlow() {
  for (const reconnect of [false, true]) {
    const slow = slowServer().listen(0, "127.0.0.1");
    await once(slow, "listening");
    const set = await djq.live("q", { port: slow.address().port, reconnect });
    assert.deepEqual([...set.answers].sort(), [[1], [2]]);
    if (reconnect) {
      const change = { seq: 2, came: [[3]], went: [[1]], restarted: true, lost: false };
      assert.deepEqual(await set.next({ timeout: 20_000 }), change);
    } else {
      const error = await failure(set.next());
      assert.match(error.message, /^the live set of q ended: the server ended the session: slow/);
      assert.equal(error.cause.reason, "slow");
    }
    set.close();
    slow.close();
  }
}

/** A listing that becomes stale between two pages has no answer of the pages before. */
async function staleListing() {
  let [opened, pages] = [0, 0];
  const speak = (socket) => (line) => {
    if (line === "") return; // a blank line isn't answered
    const [word] = line.split(" ");
    opened += word === "open" ? 1 : 0;
    pages += word === "next" ? 1 : 0;
    const stale = pages === 1 ? "= 1\nmore" : "stale l r 2";
    socket.write(`${{ open: "ok open", close: "ok", next: opened === 1 ? stale : "= 2\nend" }[word]}\n`);
  };
  const scripted = net.createServer((socket) => readline.createInterface({ input: socket }).on("line", speak(socket)));
  await once(scripted.listen(0, "127.0.0.1"), "listening");
  const own = await djq.connect({ port: scripted.address().port, timeout: 20_000 });
  assert.deepEqual(await own.snapshot("q"), [[2]]);
  assert.equal(opened, 2);
  own.close();
  scripted.close();
}

/** Each refusal that the page of the protocol lists has a cure, but for syntax, which depends on the line, and a cut input. */
function eachRefusalHasACure() {
  const page = fs.readFileSync(new URL("../../docs/PROTOCOL.md", import.meta.url), "utf8");
  const numbers = [...page.matchAll(/^\| `err (\d+) /gm)].map((found) => Number(found[1]));
  assert.ok(numbers.length > 10);
  assert.deepEqual(numbers.filter((number) => cureOf(number, "") === ""), [1, 13]);
}

/** Several tasks wait for one live set, and each change is returned to one of them. */
async function severalWait(server) {
  await server.relation("few", "int");
  await server.query("all_of_few(x) <- few(x)");
  const set = await server.live("all_of_few");
  const waiting = [set.next({ timeout: 20_000 }), set.next({ timeout: 20_000 }), set.next({ timeout: 100 })];
  await new Promise((resolve) => setTimeout(resolve, 200));
  await server.add("few", 1);
  await server.add("few", 2);
  const changes = await Promise.all(waiting);
  assert.deepEqual(changes.map((change) => change?.came[0][0] ?? null).sort(), [1, 2, null].sort());
  assert.equal(set.answers.size, 2);
  set.close();
}

bytesOneByOne();
heldBytes();
eachRefusalHasACure();
await strangers();
await tooSlow();
await staleListing();
await endLines();
const server = await djq.connect({ port, timeout: 20_000 });
await inOrder(server);
await severalWait(server);
await refusalsHaveCures(server);
await valuesThatArentSent(server);
await endings(server);
console.log("all hold");
