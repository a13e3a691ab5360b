// The client over a gateway that runs: what roles see, revokes, kills, a gateway that stands still, and a token that is taken away.
import assert from "node:assert/strict";
import {test} from "node:test";
import {connect, NotSent, Refused} from "../viewd.js";
import {Gateway, IS_BUILT, until} from "./gateway.js";
import {Socket} from "./socket.js";

const BASE = [...["ann", "mia"].map((name) => ({do: "create_role", name})),
  {do: "create_table", name: "notes", owner: "ann", columns: [["id", "int"], ["who", "text"], ["done", "flag"]]},
  {do: "create_view", name: "counts", owner: "ann", query: "select who, count(*) as n from notes group by who"},
  {do: "grant", on: "notes", privileges: ["select", "insert", "update", "delete"], to: "mia"},
  {do: "grant", on: "counts", privileges: ["select"], to: "mia"},
  {do: "row_security", on: "notes", enable: true, force: false},
  {do: "create_policy", on: "notes", name: "own", using: "who = current_user"}];

const skip = IS_BUILT ? false : "no gateway is built";

async function serving(t) {
  const gateway = await Gateway.started(t);
  const enter = (role, how = {}) => {
    const db = connect(gateway.url, {token: `${role}-demo`, WebSocket: Socket, shortest: 20, ...how});
    t.after(() => db.end());
    return db;
  };
  const admin = enter("admin");
  for (const it of BASE) await admin.request(it);
  return {gateway, enter, admin, ann: enter("ann"), mia: enter("mia")};
}

test("each role has its rows, as they change", {skip}, async (t) => {
  const {ann, mia} = await serving(t);
  const [all, own, counts] = [ann.live("notes", {order: "-id"}), mia.live("notes"), mia.live("counts")];
  await Promise.all([all, own, counts].map((it) => it.ready));
  assert.equal(mia.role, "mia");
  assert.deepEqual(own.columns, [["id", "int"], ["who", "text"], ["done", "flag"]]);
  const row = {id: 2n ** 63n - 1n, who: "mia", done: false};
  await mia.insert("notes", row);
  assert.deepEqual(own.rows, [row]); // what a write changes is there with its reply
  assert.deepEqual(counts.rows, [{who: "mia", n: 1}]);
  await ann.write([{on: "notes", insert: {id: 1, who: "ann", done: true}}, {on: "notes", insert: {id: 2, who: "mia", done: true}, copies: 3}]);
  await until(() => own.rows.length === 2, "what ann writes");
  assert.deepEqual(all.rows.map((it) => it.id), [row.id, 2, 1]);
  assert.deepEqual([own.copies(own.rows[0]), counts.rows], [3, [{who: "mia", n: 4}]]);
  await mia.update("notes", row, {done: true});
  await mia.remove("notes", own.rows[0], {copies: 3});
  assert.deepEqual(own.rows, [{...row, done: true}]);
  await assert.rejects(mia.insert("notes", {id: 3, who: "ann", done: false}), (why) =>
    why instanceof Refused && why.message === "no permissive policy (14), on notes, check insert, entry 1");
  await assert.rejects(mia.request({do: "create_role", name: "eve"}), (why) => why.code === 11);
  await assert.rejects(mia.request({do: "subscribe"}), (why) => why.message === "bad request (2), key on, why missing");
  await assert.rejects(mia.insert("notes", [1, "\ud800", true]), (why) => why instanceof Refused && [1, 2].includes(why.code));
  await assert.rejects(mia.insert("plans", {id: 1}), (why) => why instanceof Refused && why.code === 7);
});

test("a revoke takes rows, and a grant brings them back", {skip}, async (t) => {
  const {ann, mia} = await serving(t);
  await ann.insert("notes", [1, "mia", false]);
  const own = mia.live("notes");
  assert.equal((await own.ready).length, 1);
  await ann.request({do: "revoke", on: "notes", privileges: ["select"], to: "mia"});
  await until(() => own.state === "refused");
  assert.deepEqual([own.why, own.rows], ["privilege", []]);
  await ann.request({do: "grant", on: "notes", privileges: ["select"], to: "mia"});
  await until(() => own.state === "live");
  assert.equal(own.rows.length, 1);
  await ann.request({do: "drop_policy", on: "notes", name: "own"});
  await until(() => own.rows.length === 0);
  assert.equal(own.state, "live");
});

test("the seventeenth relation finds room when another is given back", {skip}, async (t) => {
  const {admin, ann} = await serving(t);
  for (let at = 0; at < 17; at++) await admin.request({do: "create_table", name: `t${at}`, owner: "ann", columns: [["id", "int"]]});
  const lives = Array.from({length: 17}, (_, at) => ann.live(`t${at}`));
  await until(() => lives.every((it) => it.state !== "waiting"));
  const refused = lives.filter((it) => it.state === "refused");
  assert.deepEqual(refused.map((it) => it.why.code), lives.slice(-refused.length).map(() => 20));
  assert.ok(refused.length >= 1);
  lives[0].close();
  await until(() => refused[0].state === "live");
});

test("over kills each write is answered, and done once", {skip}, async (t) => {
  const {gateway, ann, mia} = await serving(t);
  const all = ann.live("notes"), done = new Set();
  await all.ready;
  for (let round = 0; round < 3; round++) {
    const ids = Array.from({length: 200}, (_, at) => 200 * round + at);
    const writes = ids.map((id) => mia.insert("notes", [id, "mia", false]).then(() => done.add(id)));
    await until(() => done.size > 200 * round + 30, "answers");
    await gateway.kill();
    await until(() => ann.state === "stale" && all.state === "stale", "stale");
    await gateway.start();
    await Promise.all(writes);
    await until(() => all.state === "live" && mia.state === "live", "live again");
  }
  await until(() => all.rows.length === 600, "all rows");
  assert.deepEqual(all.rows.map((it) => it.id).sort((one, other) => one - other), [...done].sort((one, other) => one - other));
  assert.ok(all.rows.every((it) => all.copies(it) === 1));
});

test("who was idle while others of its holder wrote much writes on", {skip}, async (t) => {
  const {enter, mia} = await serving(t);
  const idle = enter("mia");
  const own = idle.live("notes");
  await own.ready;
  for (let id = 0; id < 70; id++) await mia.insert("notes", [id, "mia", false]);
  assert.deepEqual(await Promise.all([100, 101].map((id) => idle.insert("notes", [id, "mia", false]))), [{ok: true}, {ok: true}]);
  await until(() => own.state === "live" && own.rows.length === 72, "all rows");
  assert.ok(own.rows.every((it) => own.copies(it) === 1));
});

test("a gateway that stands still is told of, and left", {skip}, async (t) => {
  const {gateway, enter} = await serving(t);
  const db = enter("mia", {silence: 2000, patience: 500}), own = db.live("notes");
  await own.ready;
  gateway.signal("SIGSTOP");
  await until(() => db.state === "stale" && own.state === "stale", "stale", 10_000);
  await assert.rejects(db.insert("notes", [1, "mia", false]), NotSent);
  gateway.signal("SIGCONT");
  await until(() => db.state === "live" && own.state === "live", "live again");
});

test("who lost its token is out", {skip}, async (t) => {
  const {gateway, mia, ann} = await serving(t);
  const own = mia.live("notes");
  await own.ready;
  gateway.know("admin", "ann");
  await until(() => mia.state === "closed", "closed");
  assert.deepEqual([mia.why, own.state, ann.state], ["This token opens no role.", "closed", "live"]);
});
