// What the client says and makes of what it is told, over a gateway that a test plays: replies, rows, lost connections, silence, tokens.
import assert from "node:assert/strict";
import fs from "node:fs";
import {test} from "node:test";
import {compare, connect, NotSent, parse, Refused, text, Undecided, ViewdError} from "../viewd.js";
import {entered, Fake, follow, NOTES, pause, turn} from "./fake.js";

// What mia says and is told in the conversations of the protocol: all of the first, the right of the second, and the third up to a message
// that no client of this kind says.
function conversation() {
  const page = fs.readFileSync(new URL("../../../docs/PROTOCOL.md", import.meta.url), "utf8").split("### Conversations")[1];
  const [first, second, third] = page.split("```text\n").slice(1, 4).map((it) => it.split("```")[0].trimEnd().split("\n"));
  const right = second.map((line) => line.match(/^< .*(< .*)$/)?.[1]).filter((line) => line);
  return [...first, ...right, ...third.slice(0, 4)];
}

test("the protocol's conversation is held", async (t) => {
  Fake.all = [];
  const db = connect("ws://gateway/live", {token: "TOKEN", WebSocket: Fake}), seen = [], lines = conversation();
  t.after(() => db.end());
  await turn();
  Fake.last.onopen();
  const notes = db.live("notes");
  notes.subscribe(() => seen.push([notes.state, ...notes.rows.map((it) => `${it.id} ${it.who}`)]));
  for (const line of lines) {
    if (line.startsWith("> ")) assert.equal(Fake.last.sent.shift(), line.slice(2));
    else Fake.last.tell(line.slice(2));
  }
  assert.deepEqual(Fake.last.sent, []);
  assert.equal(lines.length, 18);
  assert.deepEqual(seen, [["live", "2 mia"], ["live", "2 mia", "3 mia"], ["refused"], ["live", "2 mia", "3 mia"]]);
});

test("a token opens a role", async (t) => {
  Fake.all = [];
  const states = [];
  const db = connect("http://gateway/live", {token: () => Promise.resolve("secret"), WebSocket: Fake});
  t.after(() => db.end());
  db.onState((state) => states.push(state));
  await turn();
  assert.equal(Fake.last.url, "ws://gateway/live");
  Fake.last.onopen();
  assert.deepEqual(Fake.last.sent, ["secret"]);
  assert.equal(db.state, "connecting");
  Fake.last.event({protocol: 1, role: "mia"});
  assert.deepEqual([db.role, db.protocol], ["mia", 1]);
  assert.deepEqual(states, ["live"]);
  assert.throws(() => connect("ws://gateway/live", {}), /no token/);
});

test("a reply counts once its event is settled", async (t) => {
  const [db, socket] = await entered(t);
  let reply = null;
  db.request({do: "create_role", name: "ann"}).then((it) => reply = it);
  const id = socket.asked({do: "create_role", name: "ann"});
  socket.tell({id, ok: true});
  await turn();
  assert.equal(reply, null);
  socket.tell({settled: true});
  await turn();
  assert.deepEqual(reply, {id, ok: true});
});

test("a refusal says its words", async (t) => {
  const [db, socket] = await entered(t);
  const refused = db.insert("notes", [1, "ann"]);
  const id = socket.asked({do: "write", entries: [{on: "notes", insert: [1, "ann"]}]});
  socket.event({check: "insert", entry: 1, error: 14, id, on: "notes"});
  await assert.rejects(refused, (why) => why instanceof Refused && why.code === 14 && why.reply.entry === 1
    && why.message === "no permissive policy (14), on notes, check insert, entry 1");
});

test("with nulls a column and the flag behind it are one", async (t) => {
  const columns = [["id", "int"], ["old_null", "flag"], ["due", "text"], ["due_null", "flag"], ["n", "int"], ["n_null", "flag"], ["n_null_null", "flag"]];
  const [db, socket] = await entered(t, {nulls: true}), more = {old_null: true, n_null_null: false};
  const notes = db.live("notes", {order: ["-due"]}), none = db.live("notes", {where: {n: null}}), most = db.live("notes", {order: "n"});
  follow(socket, 1, [[1, [1, true, "", true, 7, false, false]], [2, [2, true, "", false, 0, true, false]], [1, [3, true, "x", false, 0, false, false]],
    [1, [2, true, "", false, 9, true, false]]], "notes", columns); // the last one is the second's row, whatever stands in the place of null
  const rows = [{id: 1, due: null, n: 7, ...more}, {id: 2, due: "", n: null, ...more}, {id: 3, due: "x", n: 0, ...more}];
  assert.deepEqual(notes.columns, [["id", "int"], ["old_null", "flag"], ["due", "text"], ["n", "int"], ["n_null_null", "flag"]]);
  assert.deepEqual(await db.columns("notes"), notes.columns);
  assert.deepEqual(notes.rows, [rows[0], rows[2], rows[1]]);
  assert.deepEqual([none.rows, none.total], [[rows[1]], 1]);
  assert.deepEqual(most.rows, [rows[2], rows[0], rows[1]]);
  assert.deepEqual([notes.copies(rows[1]), notes.copies([2, true, "", false, 5, true, false]), notes.copies({...rows[1], n: 9})], [3, 3, 0]);
  socket.event({changes: [[-1, [1, true, "", true, 7, false, false]], [1, [1, true, "", false, 7, false, false]]], sub: 1});
  assert.deepEqual(notes.rows, [rows[2], {...rows[0], due: ""}, rows[1]]);
  const works = [db.remove("notes", [1, true, "", true, 7, false, false]), db.insert("notes", rows[0]), db.update("notes", rows[1], {n: 5})];
  await turn();
  for (const entry of [{delete: [1, true, "", true, 7, false, false]}, {insert: [1, true, "", true, 7, false, false]},
    {update: [[2, true, "", false, 0, true, false], [2, true, "", false, 5, false, false]]}]) socket.event({id: socket.asked({do: "write", entries: [{on: "notes", ...entry}]}), ok: true});
  await Promise.all(works);
  await assert.rejects(db.insert("notes", {...rows[0], due_null: true}), /no column due_null/);
  await assert.rejects(db.insert("notes", {...rows[0], id: null}), /no value for id/);
  await assert.rejects(db.insert("notes", {...rows[0], due: undefined}), /no value for due/);
  assert.deepEqual([compare(null, null), compare(null, "z") > 0, compare(9n, null) < 0], [0, true, true]);
});

test("rows are objects by column names, each once, in the order of their columns", async (t) => {
  const [db, socket] = await entered(t);
  const notes = db.live("notes");
  assert.equal(notes.state, "waiting");
  // U+FF01 is before U+1F600 as UTF-8, and behind it as UTF-16
  follow(socket, 1, [[1, [2, "\u{1f600}"]], [1, [2, "\uff01"]], [3, [-1, "b"]], [1, [2, "B"]]]);
  assert.deepEqual(notes.rows, [{id: -1, who: "b"}, {id: 2, who: "B"}, {id: 2, who: "\uff01"}, {id: 2, who: "\u{1f600}"}]);
  assert.deepEqual(notes.columns, NOTES);
  assert.deepEqual(await notes.ready, notes.rows);
  assert.deepEqual([notes.copies({id: -1, who: "b"}), notes.copies([2, "B"]), notes.copies([9, "x"])], [3, 1, 0]);
  assert.ok(Object.isFrozen(notes.rows[0]));
  const was = notes.rows;
  socket.event({changes: [[-2, [-1, "b"]]], sub: 1}); // a copy is left, so nothing that is shown changes
  assert.equal(notes.rows, was);
  socket.event({changes: [[-1, [-1, "b"]], [1, [5, "z"]]], sub: 1});
  assert.deepEqual(notes.rows.map((it) => it.id), [2, 2, 2, 5]);
  assert.equal(notes.rows[0], was[1]);
});

test("a column may have the name of what each object has", async (t) => {
  const [db, socket] = await entered(t);
  const live = db.live("notes", {where: {["__proto__"]: 2}});
  follow(socket, 1, [[1, [1, "a"]], [1, [2, "b"]]], "notes", [["__proto__", "int"], ["constructor", "text"]]);
  assert.deepEqual(live.rows.map((row) => Object.entries(row)), [[["__proto__", 2], ["constructor", "b"]]]);
  assert.equal(live.copies(live.rows[0]), 1);
  const done = db.update("notes", live.rows[0], {constructor: "c"});
  await turn();
  socket.event({id: socket.asked({do: "write", entries: [{on: "notes", update: [[2, "b"], [2, "c"]]}]}), ok: true});
  await done;
  await assert.rejects(db.insert("notes", {["__proto__"]: 3}), /no value for constructor/);
  await assert.rejects(db.insert("notes", {constructor: "d"}), /no value for __proto__/);
});

test("where, order and limit are of each user", async (t) => {
  const [db, socket] = await entered(t);
  const columns = [["id", "int"], ["who", "text"], ["open", "flag"]];
  const mine = db.live("notes", {where: {who: "mia"}, order: "-id", limit: 2});
  const large = db.live("notes", {where: ({id}) => id > 2, order: ["open", "-who"]});
  follow(socket, 1, [[1, [1, "mia", true]], [1, [2, "mia", false]], [1, [3, "mia", true]], [1, [4, "ann", false]]], "notes", columns);
  assert.deepEqual(mine.rows.map((it) => it.id), [3, 2]);
  assert.equal(mine.total, 3);
  assert.deepEqual(large.rows.map((it) => it.id), [4, 3]);
  socket.event({changes: [[1, [5, "mia", false]], [-1, [3, "mia", true]]], sub: 1});
  assert.deepEqual(mine.rows.map((it) => it.id), [5, 2]);
  assert.deepEqual(large.rows.map((it) => it.id), [5, 4]);
  const totals = [];
  mine.subscribe(({rows, total}) => totals.push([rows.length, total]));
  socket.event({changes: [[1, [0, "mia", false]]], sub: 1}); // beyond the limit: the rows are the same, and there is one more
  socket.event({changes: [[1, [9, "ann", false]]], sub: 1});
  assert.deepEqual(totals, [[2, 4]]);
  assert.deepEqual(socket.take(), []); // nothing more was asked for
});

test("what is kept in place is what sorting from nothing gives", async (t) => {
  const [db, socket] = await entered(t);
  const how = {where: ({id}) => id % 3 !== 0, order: ["who", "-id"], limit: 25};
  const live = db.live("notes", how), bag = new Map();
  follow(socket, 1, []);
  let seed = 7;
  const dice = (sides) => (seed = (seed * 48271) % 2147483647) % sides;
  for (let step = 0; step < 600; step++) {
    const changes = new Map();
    for (let at = dice(step % 50 ? 6 : 200); at >= 0; at--) {
      const row = [dice(90), "abcdefg"[dice(7)]], key = text(row), there = (bag.get(key)?.[0] ?? 0);
      const copies = there && dice(2) ? -1 : 1;
      changes.set(key, [(changes.get(key)?.[0] ?? 0) + copies, row]);
      bag.set(key, [there + copies, row]);
    }
    socket.event({changes: [...changes.values()].filter(([copies]) => copies), sub: 1});
    const wanted = [...bag.values()].filter(([copies, [id]]) => copies && id % 3).map(([, row]) => row)
      .sort((a, b) => compare(a[1], b[1]) || b[0] - a[0]);
    assert.deepEqual(live.rows.map((it) => [it.id, it.who]), wanted.slice(0, 25));
    assert.equal(live.total, wanted.length);
  }
});

test("users of one relation share a subscription, which the last one gives back", async (t) => {
  const [db, socket] = await entered(t);
  const one = db.live("notes"), two = db.live("notes", {limit: 1});
  follow(socket, 1, [[1, [1, "a"]], [1, [2, "b"]]]);
  const three = db.live("notes");
  assert.deepEqual([one, two, three].map((it) => it.rows.length), [2, 1, 2]);
  assert.deepEqual(socket.take(), []);
  one.close();
  one.close();
  two.close();
  assert.deepEqual(socket.take(), []);
  three.close();
  socket.event({id: socket.asked({do: "unsubscribe", sub: 1}), ok: true});
  assert.deepEqual([three.state, three.rows.length], ["closed", 2]);
  const four = db.live("notes");
  follow(socket, 2, [[1, [3, "c"]]]);
  assert.deepEqual(four.rows, [{id: 3, who: "c"}]);
});

test("a subscription that nobody wants any more when it begins is given back", async (t) => {
  const [db, socket] = await entered(t);
  db.live("notes").close();
  const id = socket.asked({do: "subscribe", on: "notes"});
  socket.event({columns: NOTES, id, ok: true, sub: 1}, {changes: [[1, [1, "a"]]], sub: 1});
  socket.event({id: socket.asked({do: "unsubscribe", sub: 1}), ok: true});
});

test("nobody sees half of an event", async (t) => {
  const [db, socket] = await entered(t);
  const notes = db.live("notes"), seen = [];
  notes.subscribe(() => seen.push(notes.rows.map((it) => it.id)));
  const id = socket.asked({do: "subscribe", on: "notes"});
  socket.tell({columns: NOTES, id, ok: true, sub: 1});
  const late = db.live("notes");
  socket.tell({changes: [[1, [1, "a"]]], sub: 1});
  assert.deepEqual([notes.state, late.state, seen], ["waiting", "waiting", []]);
  socket.tell({settled: true});
  assert.deepEqual([late.rows.length, seen], [1, [[1]]]);
  socket.tell({changes: [[-1, [1, "a"]]], sub: 1});
  const later = db.live("notes");
  assert.deepEqual([notes.rows.length, later.state], [1, "waiting"]);
  socket.event({changes: [[1, [2, "a"]]], sub: 1});
  assert.deepEqual([later.rows, seen], [[{id: 2, who: "a"}], [[1], [2]]]);
});

test("what one event changes in two relations is in both when a listener is called", async (t) => {
  const [db, socket] = await entered(t);
  const lives = ["notes", "tasks"].map((on) => db.live(on)), seen = [];
  for (const [at, on] of ["notes", "tasks"].entries()) follow(socket, at + 1, [], on);
  for (const it of lives) it.subscribe(() => seen.push(lives.map((live) => [live.state, live.rows.length])));
  socket.event({changes: [[1, [1, "a"]]], sub: 1}, {changes: [[1, [1, "a"]]], sub: 2});
  socket.end();
  assert.deepEqual(seen, [..."12"].map(() => [["live", 1], ["live", 1]]).concat([..."12"].map(() => [["stale", 1], ["stale", 1]])));
});

test("writes name columns, and are sent as lists", async (t) => {
  const [db, socket] = await entered(t);
  db.live("notes");
  follow(socket, 1, []);
  const row = {who: "mia", id: 1};
  const replies = [db.insert("notes", row, {copies: 2}), db.update("notes", row, {who: "ann"}), db.remove("notes", row),
    db.write([{on: "notes", insert: {id: 2n ** 62n, who: "x"}}, {on: "notes", update: [[1, "a"], {id: 1, who: "b"}]}])];
  await turn();
  const said = socket.take().map((it) => it.replace(/"id":\d+,/, ""));
  assert.deepEqual(said, [
    '{"do":"write","entries":[{"on":"notes","copies":2,"insert":[1,"mia"]}]}',
    '{"do":"write","entries":[{"on":"notes","update":[[1,"mia"],[1,"ann"]]}]}',
    '{"do":"write","entries":[{"on":"notes","delete":[1,"mia"]}]}',
    '{"do":"write","entries":[{"on":"notes","insert":[4611686018427387904,"x"]},{"on":"notes","update":[[1,"a"],[1,"b"]]}]}']);
  for (const id of [2, 3, 4, 5]) socket.event({id, ok: true});
  await Promise.all(replies);
  await assert.rejects(db.insert("notes", {id: 1, name: "mia"}), /no column name/);
  await assert.rejects(db.insert("notes", {id: 1}), /no value for who/);
  await assert.rejects(db.insert("notes", {id: 1.5, who: "mia"}), /no whole number/);
  await assert.rejects(db.insert("notes", {id: 2 ** 53, who: "mia"}), /BigInt/);
  assert.deepEqual(socket.take(), []);
});

test("columns are asked for once where they are not known", async (t) => {
  const [db, socket] = await entered(t, {columns: {tasks: [["title", "text"]]}});
  const one = db.insert("notes", {id: 1, who: "a"});
  await turn();
  follow(socket, 1, [[1, [9, "z"]]]);
  await turn();
  const back = socket.asked({do: "unsubscribe", sub: 1});
  const write = socket.asked({do: "write", entries: [{on: "notes", insert: [1, "a"]}]});
  socket.event({id: back, ok: true});
  socket.event({id: write, ok: true});
  await one;
  const two = db.insert("notes", {id: 2, who: "a"}), three = db.insert("tasks", {title: "rest"});
  await turn();
  socket.event({id: socket.asked({do: "write", entries: [{on: "notes", insert: [2, "a"]}]}), ok: true});
  socket.event({id: socket.asked({do: "write", entries: [{on: "tasks", insert: ["rest"]}]}), ok: true});
  await Promise.all([two, three]);
  const four = db.insert("plans", {id: 1});
  await turn();
  socket.event({error: 13, id: socket.asked({do: "subscribe", on: "plans"}), on: "plans", privilege: "select"});
  await assert.rejects(four, (why) => why instanceof Refused && why.code === 13);
});

test("a reply to another request ends the connection, and what was under way is undecided", async (t) => {
  const [db, socket] = await entered(t);
  const one = db.request({do: "create_role", name: "a"}), two = db.request({do: "create_role", name: "b"});
  const [first, second] = socket.take().map((it) => JSON.parse(it).id);
  socket.event({id: second, ok: true});
  for (const it of [one, two]) await assert.rejects(it, Undecided);
  assert.ok(first !== second && socket.closed);
  assert.equal(db.state, "stale");
  assert.equal(db.why, "a reply to another request");
  await assert.rejects(db.request({id: 7, do: "create_role", name: "c"}), /has its id from the client/);
});

test("what could not be read is answered without an id", async (t) => {
  const [db, socket] = await entered(t);
  const one = db.request({do: "create_role", name: "a"}), two = db.request({do: "create_role", name: "b"});
  const [, second] = socket.take().map((it) => JSON.parse(it).id);
  socket.event({error: 1});
  socket.event({id: second, ok: true});
  await assert.rejects(one, (why) => why.code === 1);
  await two;
  await assert.rejects(db.insert("notes", [1, "x".repeat(65_463)]), (why) => why instanceof Refused && why.code === 22);
  assert.deepEqual(socket.take(), []);
  const three = db.request({do: "create_role", name: "c"});
  socket.event({ok: true});
  await assert.rejects(three, Undecided);
});

test("what throws in a page harms nobody", async (t) => {
  const thrown = [];
  const [db, socket] = await entered(t, {onError: (why) => {
    thrown.push(why.message);
    throw why;
  }});
  const say = console.error;
  console.error = () => {};
  t.after(() => console.error = say);
  const fails = (words) => () => {
    throw new Error(words);
  };
  db.onState(fails("state"));
  db.live("notes", {where: {whom: "mia"}});
  const bad = db.live("notes", {where: fails("where")}), odd = db.live("notes", {order: "nothing"}), good = db.live("notes");
  bad.subscribe(fails("bad"));
  good.subscribe(fails("good"));
  const seen = [];
  good.subscribe(({rows}) => seen.push(rows.length));
  follow(socket, 1, [[1, [2, "a"]], [1, [1, "b"]]]);
  const replies = Array.from({length: 30}, (_, at) => db.insert("notes", [at, "x"]).then(() => "done", (why) => why.code));
  await turn();
  const ids = socket.take().map((it) => JSON.parse(it).id);
  socket.tell(...ids.flatMap((id, at) => [at % 3 ? {id, ok: true} : {entry: 1, error: 16, id},
    ...(at % 3 ? [{changes: [[1, [at + 10, "x"]]], sub: 1}] : []), {settled: true}]));
  assert.deepEqual(await Promise.all(replies), ids.map((_, at) => at % 3 ? "done" : 16));
  assert.equal(good.rows.length, 22);
  assert.deepEqual(odd.rows, good.rows);
  assert.deepEqual(bad.rows, []);
  assert.equal(seen.length, 21);
  socket.end();
  assert.equal(db.state, "stale");
  assert.deepEqual([...new Set(thrown)].sort(), ["bad", "good", "order: there is no column nothing", "state", "where", "where: there is no column whom"]);
});

test("numbers of 64 bits stay exact", async (t) => {
  const least = -(2n ** 63n), most = 2n ** 63n - 1n;
  const line = `{"a":[${least},${most},9007199254740991,-9007199254740992,1234567890123456],"b":"9223372036854775807 \\"12345678901234567"}`;
  const value = parse(line);
  assert.deepEqual(value, {a: [least, most, 9007199254740991, -9007199254740992n, 1234567890123456], b: '9223372036854775807 "12345678901234567'});
  assert.equal(text(value), line);
  assert.ok(compare(least, 3) < 0 && compare(3, most) < 0 && compare(most, most) === 0 && compare(false, true) < 0);
  const [db, socket] = await entered(t);
  const notes = db.live("notes"), one = db.live("notes", {where: {id: most}}), five = db.live("notes", {where: {id: 5n}});
  const id = socket.asked({do: "subscribe", on: "notes"});
  socket.event({columns: NOTES, id, ok: true, sub: 1}, `{"changes":[[1,[${most},"a"]],[${most},[${least},"b"]],[1,[5,"c"]],[1,[${most - 1n},"d"]]],"sub":1}`);
  assert.deepEqual(notes.rows.map((it) => it.id), [least, 5, most - 1n, most]);
  assert.equal(notes.copies([least, "b"]), most);
  assert.deepEqual([one.rows.length, five.rows.length], [1, 1]);
});

test("after a lost connection rows are stale while another is tried, and then new", async (t) => {
  const [db, socket] = await entered(t);
  const notes = db.live("notes"), states = [];
  db.onState((state, why) => states.push([state, why]));
  follow(socket, 1, [[1, [1, "a"]], [1, [2, "b"]]]);
  const [, kept] = notes.rows, write = db.insert("notes", [5, "a"]);
  socket.end(1006);
  await assert.rejects(write, Undecided);
  assert.deepEqual([notes.state, notes.rows.length, db.role, db.protocol], ["stale", 2, null, null]);
  const late = db.live("notes", {where: {id: 1}});
  assert.deepEqual([late.state, late.rows], ["stale", [{id: 1, who: "a"}]]);
  const waits = db.insert("notes", [6, "a"]); // not sent yet, so it is not undecided
  await pause(20);
  assert.notEqual(Fake.last, socket);
  Fake.last.enter();
  assert.equal(notes.state, "stale");
  Fake.last.sent.shift();
  follow(Fake.last, 1, [[1, [2, "b"]]]);
  assert.deepEqual([notes.state, notes.rows], ["live", [{id: 2, who: "b"}]]);
  assert.deepEqual([late.state, late.rows, await late.ready], ["live", [], []]);
  assert.equal(notes.rows[0], kept); // the same object, so that nothing is drawn anew
  Fake.last.event({id: Fake.last.asked({do: "write", entries: [{on: "notes", insert: [6, "a"]}]}), ok: true});
  await waits;
  assert.deepEqual(states, [["stale", "the connection ended (1006)"], ["live", null]]);
  socket.tell({changes: [[1, [3, "c"]]], sub: 1}, {settled: true}); // of a connection that is gone
  assert.equal(notes.rows.length, 1);
});

test("a gateway that is silent is left, and one that is alive is not", async (t) => {
  const [db, socket] = await entered(t, {silence: 800});
  for (let at = 0; at < 12; at++) {
    await pause(100);
    socket.tell({alive: true});
  }
  assert.deepEqual([db.state, Fake.all.length], ["live", 1]);
  await pause(1400);
  assert.deepEqual([db.state, db.why, socket.closed], ["stale", "silent", true]);
  assert.ok(Fake.all.length > 1);
});

test("a person may take long to give a token", async (t) => {
  Fake.all = [];
  let asked = 0;
  const db = connect("ws://gateway/live", {token: () => (asked++, new Promise((done) => setTimeout(() => done("t"), 1500))), WebSocket: Fake, silence: 20});
  t.after(() => db.end());
  await pause(400);
  assert.deepEqual([asked, Fake.all.length], [1, 0]);
  await pause(1300);
  assert.equal(Fake.all.length, 1);
});

test("the browser says when it has no network, and when it has one again", async (t) => {
  const page = new EventTarget();
  globalThis.addEventListener = page.addEventListener.bind(page);
  globalThis.removeEventListener = page.removeEventListener.bind(page);
  t.after(() => {
    delete globalThis.addEventListener;
    delete globalThis.removeEventListener;
  });
  const [db, socket] = await entered(t, {shortest: 60_000, longest: 60_000});
  page.dispatchEvent(new Event("offline"));
  assert.deepEqual([db.state, db.why, socket.closed, Fake.all.length], ["stale", "offline", true, 1]);
  page.dispatchEvent(new Event("online"));
  await turn();
  assert.equal(Fake.all.length, 2);
  Fake.last.enter();
  assert.equal(db.state, "live");
  db.end();
  page.dispatchEvent(new Event("online"));
  await turn();
  assert.equal(Fake.all.length, 2);
});

test("tries wait longer and longer, with chance", async (t) => {
  const [later, random] = [globalThis.setTimeout, Math.random];
  t.after(() => [globalThis.setTimeout, Math.random] = [later, random]);
  const waits = [];
  globalThis.setTimeout = (act, wait) => (waits.push(wait), later(act, 0));
  Fake.all = [];
  const db = connect("ws://gateway/live", {token: "t", WebSocket: Fake});
  t.after(() => db.end());
  for (const chance of [0, 1, 0, 1, 0, 0, 0, 0, 0, 0]) {
    Math.random = () => chance;
    await turn();
    Fake.last.end();
    await pause(5);
  }
  assert.deepEqual(waits, [125, 500, 500, 2000, 2000, 4000, 8000, 15000, 15000, 15000]);
  assert.equal(db.state, "connecting");
});

test("a token that opens no role closes the client", async (t) => {
  Fake.all = [];
  const db = connect("ws://gateway/live", {token: "t", WebSocket: Fake, shortest: 2});
  await turn();
  const waits = db.insert("notes", [1, "a"]), notes = db.live("notes");
  Fake.last.onopen();
  Fake.last.end(4401, "This token opens no role.");
  assert.deepEqual([db.state, db.why, notes.state], ["closed", "This token opens no role.", "closed"]);
  await assert.rejects(waits, NotSent);
  await assert.rejects(notes.ready, NotSent);
  await pause(10);
  assert.equal(Fake.all.length, 1);
});

test("a function may give another token for one that ran out", async (t) => {
  Fake.all = [];
  const tokens = ["old", "new", "new"];
  const db = connect("ws://gateway/live", {token: () => tokens.shift(), WebSocket: Fake, shortest: 2});
  await turn();
  for (const told of ["old", "new"]) {
    Fake.last.onopen();
    assert.deepEqual(Fake.last.sent, [told]);
    Fake.last.end(4401, "This token opens no role.");
    await pause(10);
  }
  Fake.last.onopen();
  Fake.last.end(4401, "This token opens no role.");
  assert.deepEqual([db.state, Fake.all.length], ["closed", 3]);
});

test("a token that was let in twice, and has run out, is asked for anew", async (t) => {
  Fake.all = [];
  const tokens = ["old", "old", "new"];
  const db = connect("ws://gateway/live", {token: () => tokens.shift(), WebSocket: Fake, shortest: 2});
  t.after(() => db.end());
  await turn();
  for (const [token, ...how] of [["old", 1006], ["old", 4401, "This token opens no role."]]) {
    Fake.last.enter();
    assert.deepEqual([db.state, Fake.last.sent[0]], ["live", token]);
    Fake.last.end(...how);
    await pause(20);
  }
  Fake.last.enter();
  assert.deepEqual([db.state, Fake.last.sent[0], Fake.all.length], ["live", "new", 3]);
});

test("a token function that fails is asked again", async (t) => {
  Fake.all = [];
  let asked = 0;
  const db = connect("ws://gateway/live", {token: () => asked++ ? "t" : Promise.reject(new Error("no network")), WebSocket: Fake, shortest: 2});
  t.after(() => db.end());
  await turn();
  assert.deepEqual([db.state, db.why, Fake.all.length], ["connecting", "no network", 0]);
  await pause(15);
  assert.equal(Fake.all.length, 1);
});

test("who ends a client hears no more", async (t) => {
  const [db, socket] = await entered(t);
  const notes = db.live("notes"), seen = [];
  follow(socket, 1, [[1, [1, "a"]]]);
  notes.subscribe((it) => seen.push(it.state));
  db.onState((state) => seen.push(state));
  const asked = db.insert("notes", [2, "b"]);
  await turn();
  db.end();
  db.end();
  await assert.rejects(asked, Undecided);
  await assert.rejects(db.insert("notes", [2, "b"]), NotSent);
  assert.throws(() => db.live("notes"), NotSent);
  assert.deepEqual(seen, ["closed", "closed"]);
  assert.deepEqual([notes.rows.length, db.why, socket.closed], [1, "ended", true]);
  await pause(10);
  assert.equal(Fake.all.length, 1);
});

test("an end takes the rows, and a grant brings them back", async (t) => {
  const [db, socket] = await entered(t);
  const notes = db.live("notes");
  follow(socket, 1, [[1, [1, "a"]]]);
  socket.event({changes: [[-1, [1, "a"]]], ended: "privilege", on: "notes", sub: 1});
  assert.deepEqual([notes.state, notes.why, notes.rows], ["refused", "privilege", []]);
  socket.event({granted: "notes"});
  follow(socket, 2, [[1, [2, "b"]]]);
  assert.deepEqual([notes.state, notes.why, notes.rows.length], ["live", null, 1]);
});

test("what is refused says so, and is tried again where it may be granted, small enough, or find room", async (t) => {
  const [db, socket] = await entered(t, {again: 10});
  const [notes, sums, plans] = ["notes", "sums", "plans"].map((on) => db.live(on, {order: "-id"}));
  socket.event({error: 13, id: socket.asked({do: "subscribe", on: "notes"}), on: "notes", privilege: "select"});
  socket.event({error: 17, id: socket.asked({do: "subscribe", on: "sums"})});
  socket.event({error: 20, id: socket.asked({do: "subscribe", on: "plans"})});
  assert.deepEqual([notes.state, sums.why.code, plans.why.code], ["refused", 17, 20]);
  await assert.rejects(notes.ready, Refused);
  await pause(25);
  follow(socket, 1, [], "sums");
  follow(socket, 2, [], "plans");
  assert.deepEqual([sums.state, plans.state], ["live", "live"]);
  assert.deepEqual(socket.take(), []);
});

test("the place of a subscription that was given back is taken by one that found none", async (t) => {
  const [db, socket] = await entered(t);
  const notes = db.live("notes"), plans = db.live("plans");
  follow(socket, 1, []);
  socket.event({error: 20, id: socket.asked({do: "subscribe", on: "plans"})});
  notes.close();
  socket.event({id: socket.asked({do: "unsubscribe", sub: 1}), ok: true});
  follow(socket, 2, [], "plans");
  assert.equal(plans.state, "live");
});

test("a request waits for a connection, and not for ever", async (t) => {
  Fake.all = [];
  const db = connect("ws://gateway/live", {token: "t", WebSocket: Fake, patience: 20});
  t.after(() => db.end());
  await turn();
  const asked = [[1, "a"], {id: 1, who: "a"}].map((row) => db.insert("notes", row).catch((it) => it));
  await pause(20);
  const [why, other] = await Promise.all(asked);
  assert.ok(why instanceof NotSent && why instanceof ViewdError && why.name === "NotSent");
  assert.ok(other instanceof NotSent);
  Fake.last.enter();
  assert.deepEqual(Fake.last.take(), []);
});

test("lines that are not known are passed over, and what is no JSON ends the connection", async (t) => {
  const [db, socket] = await entered(t);
  socket.event({made: {relation: "notes"}}, {shape: {}}, {alive: true});
  assert.equal(db.state, "live");
  db.live("notes");
  const id = socket.asked({do: "subscribe", on: "notes"});
  socket.tell({id, ok: true, sub: 1}, {changes: [[1, [1, "a"]]], sub: 1}, {settled: true}); // of a server that tells no columns
  assert.deepEqual([db.state, socket.closed, db.why.slice(0, 29)], ["stale", true, "a line that is not understood"]);
  await pause(10);
  Fake.last.enter().tell("{");
  assert.deepEqual([db.state, Fake.last.closed], ["stale", true]);
});

const EPOCH = "0123456789abcdef0123456789abcdef";
const place = (count, epoch = EPOCH) => `${epoch}.${count}`;
const withoutId = (said) => said.replace(/^\{"id":\d+,/, "{");

test("a write is sent by the same name, place and bytes until it is answered", async (t) => {
  const [db, first] = await entered(t, {}, place(3));
  const done = db.insert("notes", [1, "ann"]);
  await turn();
  const [said] = first.take();
  assert.match(said, /^\{"id":\d+,"once":"[A-Za-z0-9_-]{22}","at":"0123456789abcdef0123456789abcdef\.3","do":"write","entries":\[\{"on":"notes","insert":\[1,"ann"\]\}\]\}$/);
  let id;
  for (const count of [3, 4, 4]) { // each goes before the answer
    Fake.last.end();
    await pause(100);
    Fake.last.enter("mia", place(count));
    const [again, ...more] = Fake.last.take();
    assert.equal(withoutId(again), withoutId(said));
    assert.deepEqual(more, []);
    ({id} = JSON.parse(again));
  }
  Fake.last.event({again: true, answer: {ok: true}, at: place(5), id});
  assert.deepEqual(await done, {ok: true});
  const other = db.remove("notes", [1, "ann"]);
  await turn();
  const {id: next, once, at, ...body} = JSON.parse(Fake.last.take()[0]);
  assert.notEqual(once, JSON.parse(said).once);
  assert.deepEqual([at, body], [place(5), {do: "write", entries: [{on: "notes", delete: [1, "ann"]}]}]);
  Fake.last.event({answer: {entry: 1, error: 16}, at: place(6), id: next});
  await assert.rejects(other, {name: "Refused", code: 16});
  assert.deepEqual(Fake.last.take(), []);
});

test("what the gateway does not know any more is the page's", async (t) => {
  const [db, socket] = await entered(t, {}, place(0));
  for (const code of [100, 101, 103]) {
    const done = db.insert("notes", [code, "ann"]);
    await turn();
    const {id} = JSON.parse(socket.take()[0]);
    socket.event({id, undecided: code});
    await assert.rejects(done, {name: "Undecided", code});
  }
  await pause(60_000);
  assert.deepEqual(socket.take(), []);
});

test("a write that has to wait is sent again as it is", async (t) => {
  const [db, socket] = await entered(t, {again: 1000, silence: 1e9}, place(0));
  const done = db.insert("notes", [1, "ann"]);
  await turn();
  const [said] = socket.take();
  socket.event({id: JSON.parse(said).id, undecided: 104});
  await pause(900);
  assert.deepEqual(socket.take(), []);
  await pause(200);
  const [again] = socket.take();
  assert.equal(withoutId(again), withoutId(said));
  socket.event({answer: {ok: true}, at: place(1), id: JSON.parse(again).id});
  assert.deepEqual(await done, {ok: true});
});

test("what was sent once and came too late is sent by another name, behind another connection", async (t) => {
  const [db, socket] = await entered(t, {silence: 1e9}, place(0));
  const done = [1, 2].map((id) => db.insert("notes", [id, "ann"]));
  await turn();
  const said = socket.take().map((it) => JSON.parse(it));
  socket.event({id: said[0].id, undecided: 102});
  const waits = db.insert("notes", [3, "ann"]);
  await turn();
  assert.deepEqual(socket.take(), []); // its place is old, too
  socket.event({id: said[1].id, undecided: 102});
  await pause(300);
  Fake.last.enter("mia", place(70));
  const again = Fake.last.take().map((it) => JSON.parse(it));
  assert.deepEqual(again.map(({at, entries}) => [at, entries[0].insert[0]]), [[place(70), 1], [place(70), 2], [place(70), 3]]);
  assert.equal(new Set([...said, ...again].map(({once}) => once)).size, 5);
  for (const [at, {id}] of again.entries()) Fake.last.event({answer: {ok: true}, at: place(71 + at), id});
  assert.deepEqual(await Promise.all([...done, waits]), [{ok: true}, {ok: true}, {ok: true}]);
});

test("what came too late waits until what is under way is answered", async (t) => {
  const [db, socket] = await entered(t, {silence: 1e9}, place(0));
  const made = (name) => db.request({do: "create_role", name});
  const done = [db.insert("notes", [1, "ann"]), made("eve")];
  await turn();
  const [write, other] = socket.take().map((it) => JSON.parse(it));
  socket.event({id: write.id, undecided: 102});
  done.push(made("joe"));
  await turn();
  assert.deepEqual(socket.take(), []);
  socket.event({id: other.id, ok: true});
  assert.deepEqual(await done[1], {id: other.id, ok: true});
  await pause(300);
  Fake.last.enter("mia", place(70));
  const [again, last, ...none] = Fake.last.take().map((it) => JSON.parse(it));
  assert.deepEqual([again.at, last.name, none], [place(70), "joe", []]);
  Fake.last.event({answer: {ok: true}, at: place(71), id: again.id}, {settled: true}, {id: last.id, ok: true});
  assert.equal((await Promise.all(done)).length, 3);
});

test("what was sent twice and came too late is undecided", async (t) => {
  const [db, socket] = await entered(t, {silence: 1e9}, place(0));
  const done = db.insert("notes", [1, "ann"]);
  await turn();
  socket.take();
  socket.end();
  await pause(300);
  Fake.last.enter("mia", place(70));
  const [again] = Fake.last.take();
  Fake.last.event({id: JSON.parse(again).id, undecided: 102});
  await assert.rejects(done, {name: "Undecided", code: 102});
});

test("a write that has to wait is not left so far behind that the gateway would forget it", async (t) => {
  const [db, socket] = await entered(t, {again: 1000, silence: 1e9}, place(5));
  const write = async (at) => {
    const done = db.insert("notes", [at, "ann"]);
    await turn();
    return [done, ...socket.take().map((it) => JSON.parse(it))];
  };
  const [first, said] = await write(0);
  socket.event({id: said.id, undecided: 104});
  for (let at = 1; at <= 32; at++) {
    const [done, {id}] = await write(at);
    socket.event({answer: {ok: true}, at: place(5 + at), id});
    await done;
  }
  const [last, ...none] = await write(33);
  assert.deepEqual(none, []);
  await pause(1000);
  const [again] = socket.take().map((it) => JSON.parse(it));
  assert.deepEqual([again.once, again.at], [said.once, place(5)]);
  socket.event({answer: {ok: true}, at: place(38), id: again.id});
  const [behind] = socket.take().map((it) => JSON.parse(it));
  assert.deepEqual([behind.at, behind.entries], [place(38), [{on: "notes", insert: [33, "ann"]}]]);
  socket.event({answer: {ok: true}, at: place(39), id: behind.id});
  await Promise.all([first, last]);
});

test("so many writes are under way as the gateway keeps names for", async (t) => {
  const [db, socket] = await entered(t, {}, place(0));
  const done = Array.from({length: 20}, (_, at) => db.insert("notes", [at, "ann"]));
  const behind = db.request({do: "create_role", name: "eve"});
  await turn();
  const said = socket.take().map((it) => JSON.parse(it));
  assert.deepEqual(said.map(({at}) => at), Array(16).fill(place(0)));
  socket.event({answer: {ok: true}, at: place(1), id: said[0].id}, {settled: true}, {answer: {ok: true}, at: place(2), id: said[1].id});
  const more = socket.take().map((it) => JSON.parse(it));
  assert.deepEqual(more.map(({at, entries}) => [at, entries[0].insert[0]]), [[place(1), 16], [place(2), 17]]);
  for (const [at, {id}] of [...said.slice(2), ...more].entries()) socket.event({answer: {ok: true}, at: place(at + 3), id});
  const last = socket.take().map((it) => JSON.parse(it));
  assert.deepEqual(last.map((it) => it.do), ["write", "write", "create_role"]);
  for (const {id, once} of last) socket.event(once ? {answer: {ok: true}, at: place(30), id} : {id, ok: true});
  assert.equal((await Promise.all([...done, behind])).length, 21);
});

test("a write that waits for the answers of others does not wait for a connection", async (t) => {
  const [db, first] = await entered(t, {patience: 1000, silence: 1e9}, place(0));
  first.end();
  const done = Array.from({length: 17}, (_, at) => db.insert("notes", [at, "ann"]));
  await pause(500);
  Fake.last.enter("mia", place(0));
  await pause(2000);
  const said = Fake.last.take().map((it) => JSON.parse(it));
  assert.equal(said.length, 16);
  for (const [at, {id}] of said.entries()) Fake.last.event({answer: {ok: true}, at: place(at + 1), id});
  const [last] = Fake.last.take().map((it) => JSON.parse(it));
  assert.deepEqual(last.entries, [{on: "notes", insert: [16, "ann"]}]);
  Fake.last.end(); // and where it goes again, the wait begins anew
  const other = db.insert("notes", [17, "ann"]).catch((why) => why.name);
  await pause(999);
  assert.equal(await Promise.race([other, turn()]), undefined);
  await pause(2);
  assert.equal(await other, "NotSent");
  await pause(60_000);
  Fake.last.enter("mia", place(17));
  Fake.last.event({again: true, answer: {ok: true}, at: place(17), id: JSON.parse(Fake.last.take()[0]).id});
  assert.equal((await Promise.all(done)).length, 17);
});

test("a gateway that tells no place is told no name, and what another one may have done is undecided", async (t) => {
  const [db, first] = await entered(t, {}, place(0));
  const done = db.insert("notes", [1, "ann"]);
  await turn();
  assert.equal(first.take().length, 1);
  first.end();
  await pause(100);
  Fake.last.enter();
  await assert.rejects(done, {name: "Undecided", code: null});
  assert.deepEqual(Fake.last.take(), []);
  const other = db.insert("notes", [2, "ann"]);
  await turn();
  const id = Fake.last.asked({do: "write", entries: [{on: "notes", insert: [2, "ann"]}]});
  Fake.last.event({id, ok: true});
  assert.deepEqual(await other, {id, ok: true});
});

test("who ends a client is told what was sent, and what was not", async (t) => {
  const [db, socket] = await entered(t, {}, place(0));
  const sent = db.insert("notes", [1, "ann"]);
  await turn();
  socket.end();
  const waits = db.insert("notes", [2, "ann"]);
  await turn();
  db.end();
  await assert.rejects(sent, {name: "Undecided", code: null});
  await assert.rejects(waits, {name: "NotSent"});
});

test("many rows are taken in quickly", async (t) => {
  const [db, socket] = await entered(t);
  const live = db.live("notes", {order: "-id", limit: 50});
  // milliseconds of processor, as others may be at work
  const taken = (act) => {
    const began = process.cpuUsage();
    act();
    return process.cpuUsage(began).user / 1000;
  };
  const all = taken(() => follow(socket, 1, Array.from({length: 20_000}, (_, at) => [1, [at, `row ${at}`]])));
  const each = taken(() => {
    for (let at = 0; at < 200; at++) socket.event({changes: [[-1, [at, `row ${at}`]], [1, [at + 20_000, `row ${at + 20_000}`]]], sub: 1});
  }) / 200;
  assert.equal(live.total, 20_000);
  t.diagnostic(`${each.toFixed(2)} ms a change, and ${all.toFixed(0)} ms for all of 20,000 rows`);
  assert.ok(each < all / 10, `${each} ms a change, and ${all} ms for all rows`);
});
