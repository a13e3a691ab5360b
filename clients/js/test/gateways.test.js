// What the client makes of several addresses, over gateways that a test plays: lost connections, and writes that others decide.
import assert from "node:assert/strict";
import {test} from "node:test";
import {connect} from "../viewd.js";
import {entered, Fake, follow, pause, turn} from "./fake.js";

const TWO = ["ws://one/live", "ws://two/live"];
const EPOCH = "0123456789abcdef0123456789abcdef";
const place = (count) => `${EPOCH}.${count}`;
const withoutId = (said) => said.replace(/^\{"id":\d+,/, "{");
const idOf = (said) => JSON.parse(said).id;

/** The gateways of all connections, by their first letters. */
const went = () => Fake.all.map(({url}) => new URL(url).hostname[0]).join("");

/** Math.random is this one behind it, until the test ends. */
function chance(t, value) {
  const random = Math.random;
  t.after(() => Math.random = random);
  Math.random = () => value;
}

/** The next gateway of the round has let the client in. What it is said there. */
async function next(count = 0) {
  const before = Fake.all.length;
  await pause(0);
  assert.equal(Fake.all.length, before + 1);
  Fake.last.enter("mia", place(count));
  return Fake.last.take();
}

/** Rows of one write each, that are under way at a gateway. */
async function written(db, socket, ...ids) {
  const done = ids.map((id) => db.insert("notes", [id, "ann"]));
  await turn();
  return [done, socket.take()];
}

test("a write that others decide goes to the next gateway by the same name, place and bytes, and all else with it", async (t) => {
  const [db, first] = await entered(t, {}, place(3), TWO);
  const notes = db.live("notes"), states = [];
  follow(first, 1, [[1, [1, "ann"]]]);
  db.onState((state, why) => states.push([state, why]));
  const [[done], [said]] = await written(db, first, 2);
  first.event({id: idOf(said), undecided: 100});
  assert.deepEqual([first.closed, notes.state, notes.rows.length], [true, "stale", 1]);
  const [subscribe, again, ...none] = await next(2);
  assert.deepEqual([went(), JSON.parse(subscribe).do, withoutId(again), none], ["ot", "subscribe", withoutId(said), []]);
  let isDone = false;
  done.then(() => isDone = true);
  first.tell({answer: {ok: true}, at: place(4), id: idOf(said)}, {settled: true}); // of a connection that is gone
  await turn();
  assert.equal(isDone, false);
  Fake.last.event({columns: [["id", "int"], ["who", "text"]], id: idOf(subscribe), ok: true, sub: 1}, {changes: [[1, [1, "ann"]]], sub: 1});
  Fake.last.event({answer: {ok: true}, at: place(3), id: idOf(again)}, {changes: [[1, [2, "ann"]]], sub: 1});
  assert.deepEqual([await done, notes.rows.length], [{ok: true}, 2]);
  await pause(20_000);
  assert.deepEqual([went(), states], ["ot", [["stale", "it follows a log that others decide"], ["live", null]]]);
  const [[other], [more]] = await written(db, Fake.last, 3);
  assert.equal(JSON.parse(more).at, place(3));
  Fake.last.event({answer: {ok: true}, at: place(4), id: idOf(more)});
  assert.deepEqual(await other, {ok: true});
});

test("who goes waits for the answers of what is under way, and asks nothing more", async (t) => {
  const [db, first] = await entered(t, {}, place(0), TWO);
  const made = db.request({do: "create_role", name: "eve"});
  const [done, [role, ...said]] = await written(db, first, 1, 2);
  first.event({id: idOf(role), error: 11});
  await assert.rejects(made, {name: "Refused", code: 11});
  const asked = db.request({do: "create_role", name: "joe"});
  await turn();
  const [other] = first.take();
  first.event({id: idOf(said[0]), undecided: 100});
  done.push(db.insert("notes", [3, "ann"]));
  first.event({id: idOf(said[1]), undecided: 100});
  await pause(0);
  assert.deepEqual([first.closed, first.take()], [false, []]);
  first.event({id: idOf(other), error: 100}); // without a name it is as ever
  await assert.rejects(asked, {name: "Refused", code: 100});
  assert.equal(first.closed, true);
  const again = await next();
  assert.deepEqual(again.slice(0, 2).map(withoutId), said.map(withoutId));
  assert.deepEqual(again.map((it) => JSON.parse(it).entries[0].insert[0]), [1, 2, 3]);
  for (const [at, it] of again.entries()) Fake.last.event({answer: {ok: true}, at: place(at + 1), id: idOf(it)});
  assert.deepEqual(await Promise.all(done), [{ok: true}, {ok: true}, {ok: true}]);
});

test("a request without a name that others decide is refused, and goes nowhere", async (t) => {
  const [db, first] = await entered(t, {}, null, TWO);
  const done = db.insert("notes", [1, "ann"]);
  await turn();
  first.event({id: idOf(first.take()[0]), error: 100});
  await assert.rejects(done, {name: "Refused", code: 100});
  await pause(1000);
  assert.equal(went(), "o");
});

test("with one address a write that others decide is undecided", async (t) => {
  const [db, socket] = await entered(t, {}, place(0), ["ws://one/live"]);
  const [[done], [said]] = await written(db, socket, 1);
  socket.event({id: idOf(said), undecided: 100});
  await assert.rejects(done, {name: "Undecided", code: 100});
  await pause(20_000);
  assert.deepEqual([socket.take(), went()], [[], "o"]);
});

test("where nobody decides the list is gone through again, until one does", async (t) => {
  chance(t, 1);
  const [db, first] = await entered(t, {shortest: 250}, place(0), TWO);
  const [[done], [said]] = await written(db, first, 1);
  first.event({id: idOf(said), undecided: 100});
  for (const wait of [250, 500, 1000]) {
    const [again] = await next();
    assert.equal(withoutId(again), withoutId(said));
    Fake.last.event({id: idOf(again), undecided: 100});
    await pause(wait - 1);
    assert.equal(went().at(-1), "t");
    await pause(1);
    assert.equal(went().at(-1), "o");
    Fake.last.enter("mia", place(0));
    const [other] = Fake.last.take();
    assert.equal(withoutId(other), withoutId(said));
    if (wait < 1000) Fake.last.event({id: idOf(other), undecided: 100});
    else Fake.last.event({answer: {ok: true}, at: place(1), id: idOf(other)});
  }
  assert.deepEqual(await done, {ok: true});
  await pause(20_000);
  assert.equal(went(), "otototo");
});

test("where nobody decides for long a write is undecided, and it is sent no more", async (t) => {
  chance(t, 1);
  const [db, first] = await entered(t, {shortest: 250}, place(0), TWO);
  const [[done], sent] = await written(db, first, 1);
  let fault = null;
  done.catch((why) => fault = why);
  for (const wait of [250, 500, 1000, 2000, 4000, 8000, 14_250]) { // both at 0, 0.25, 0.75, 1.75, 3.75, 7.75 and 15.75 seconds; 30 are over 14.25 later
    Fake.last.event({id: idOf(sent.at(-1)), undecided: 100});
    sent.push(...await next());
    Fake.last.event({id: idOf(sent.at(-1)), undecided: 100});
    await pause(wait - 1);
    assert.equal(fault, null);
    await pause(1);
    if (wait < 14_250) sent.push(...Fake.last.enter("mia", place(0)).take());
  }
  assert.deepEqual([fault?.name, fault?.code], ["Undecided", 100]);
  assert.deepEqual([sent.length, new Set(sent.map(withoutId)).size], [14, 1]);
  await pause(1750);
  Fake.last.enter("mia", place(0));
  assert.deepEqual(Fake.last.take(), []);
  const [[other], [said]] = await written(db, Fake.last, 2); // and another one is tried as long
  Fake.last.event({id: idOf(said), undecided: 100});
  await next();
  db.end();
  await assert.rejects(other, {name: "Undecided", code: null});
});

test("a write that is under way when its time is over counts as it is answered", async (t) => {
  for (const [reply, wanted] of [[{answer: {ok: true}, at: place(1)}, "done"], [{undecided: 100}, 100]]) {
    const [db, first] = await entered(t, {patience: 1000}, place(0), TWO);
    const [[done], [said]] = await written(db, first, 1);
    first.event({id: idOf(said), undecided: 100});
    const [again] = await next();
    await pause(1500);
    Fake.last.event({id: idOf(again), ...reply});
    assert.equal(await done.then(() => "done", ({code}) => code), wanted);
    await pause(1000);
    assert.equal(went(), "ot");
  }
});

test("a write whose connection goes is said again to the next gateway, which tells the first answer", async (t) => {
  const [db, first] = await entered(t, {}, place(0), TWO);
  const [[done], [said]] = await written(db, first, 1);
  first.end();
  const [again, ...none] = await next(1);
  assert.deepEqual([went(), withoutId(again), none], ["ot", withoutId(said), []]);
  Fake.last.event({again: true, answer: {entry: 1, error: 16}, at: place(1), id: idOf(again)});
  await assert.rejects(done, {name: "Refused", code: 16});
});

test("who follows may not have it yet: the write is said again until it is answered, and by no other name", async (t) => {
  const [db, first] = await entered(t, {}, place(0), TWO);
  const [[done], [said]] = await written(db, first, 1);
  first.end();
  const [again] = await next();
  Fake.last.event({id: idOf(again), undecided: 100});
  await pause(10);
  assert.equal(went(), "oto");
  Fake.last.end(); // it is not there
  const [third] = await next(70);
  assert.equal(withoutId(third), withoutId(said));
  Fake.last.event({id: idOf(third), undecided: 102}); // it may have been done at the first
  await assert.rejects(done, {name: "Undecided", code: 102});
});

test("what no gateway carried out, and came too late at another, has another name, for the place there", async (t) => {
  const [db, first] = await entered(t, {}, place(0), TWO);
  const [[done], [said]] = await written(db, first, 1);
  first.event({id: idOf(said), undecided: 100});
  const [again] = await next(70);
  Fake.last.event({id: idOf(again), undecided: 102});
  const [other] = (await pause(10), Fake.last.enter("mia", place(70)).take());
  assert.equal(went(), "ott"); // by the first it might be told an old place
  const [{once, at}, {once: before}] = [JSON.parse(other), JSON.parse(said)];
  assert.deepEqual([at, once === before], [place(70), false]);
  Fake.last.event({answer: {ok: true}, at: place(71), id: idOf(other)});
  assert.deepEqual(await done, {ok: true});
});

test("a write that has found who decides waits there as long as it has to (104)", async (t) => {
  const [db, first] = await entered(t, {patience: 1000, again: 3000}, place(0), TWO);
  const [[done], [said]] = await written(db, first, 1);
  first.event({id: idOf(said), undecided: 100});
  const [again] = await next();
  Fake.last.event({id: idOf(again), undecided: 104});
  await pause(3000);
  const [third] = Fake.last.take();
  assert.equal(withoutId(third), withoutId(said));
  Fake.last.event({id: idOf(third), undecided: 100}); // and from here on its time is whole
  await pause(10);
  const [fourth] = Fake.last.enter("mia", place(0)).take();
  await pause(900);
  Fake.last.event({id: idOf(fourth), undecided: 100});
  const [fifth] = await next();
  assert.equal(await Promise.race([done, turn()]), undefined);
  Fake.last.event({id: idOf(fifth), undecided: 100});
  await pause(90);
  await assert.rejects(done, {name: "Undecided", code: 100});
});

test("101, 103 and 104 are as with one address", async (t) => {
  const [db, socket] = await entered(t, {again: 1000, silence: 1e9}, place(0), TWO);
  for (const code of [101, 103]) {
    const [[done], [said]] = await written(db, socket, code);
    socket.event({id: idOf(said), undecided: code});
    await assert.rejects(done, {name: "Undecided", code});
  }
  const [[done], [said]] = await written(db, socket, 104);
  socket.event({id: idOf(said), undecided: 104});
  await pause(1000);
  const [again] = socket.take();
  assert.equal(withoutId(again), withoutId(said));
  socket.event({answer: {ok: true}, at: place(1), id: idOf(again)});
  assert.deepEqual([await done, went()], [{ok: true}, "o"]);
});

test("addresses are tried in turn, and after a round of them the waits are those of one", async (t) => {
  chance(t, 0);
  const later = globalThis.setTimeout, waits = [];
  t.after(() => globalThis.setTimeout = later);
  globalThis.setTimeout = (act, wait) => (waits.push(wait), later(act, 0));
  Fake.all = [];
  const db = connect(["ws://one/live", new URL("wss://two/live"), "http://six/live"], {token: "t", WebSocket: Fake});
  t.after(() => db.end());
  for (let at = 0; at < 9; at++) {
    await turn();
    Fake.last.end();
    await pause(0);
  }
  assert.deepEqual([went(), waits], ["otsotsotso", [0, 0, 125, 0, 0, 250, 0, 0, 500]]);
  assert.deepEqual([...new Set(Fake.all.map(({url}) => url))], ["ws://one/live", "wss://two/live", "ws://six/live"]);
  assert.throws(() => connect([], {token: "t", WebSocket: Fake}), /no address/);
});

test("an address at which nobody is does no harm", async (t) => {
  Fake.all = [];
  const db = connect(TWO, {token: "t", WebSocket: Fake, shortest: 1000, silence: 1e9});
  t.after(() => db.end());
  const notes = db.live("notes");
  await turn();
  Fake.last.end();
  await pause(0);
  assert.equal(went(), "ot");
  Fake.last.enter("mia", place(0)).sent.shift();
  follow(Fake.last, 1, [[1, [1, "ann"]]]);
  assert.deepEqual([db.state, notes.rows.length], ["live", 1]);
  const lost = Fake.last;
  await pause(10_001);
  lost.end(); // who was there for long begins a round
  await pause(0);
  Fake.last.end();
  await pause(0);
  assert.equal(went(), "oto");
  await pause(1000);
  assert.equal(went(), "otot");
});

test("a gateway may say what it likes: nothing is done twice, lost, or sent without end", async (t) => {
  const plays = {
    "100 with another id": (socket, said) => socket.event({id: idOf(said) + 7, undecided: 100}),
    "100 without an id": (socket) => socket.event({undecided: 100}),
    "100, and an end": (socket, said) => (socket.tell({id: idOf(said), undecided: 100}), socket.end(1013)),
    "100 twice": (socket, said) => (socket.tell({id: idOf(said), undecided: 100}), socket.event({id: idOf(said), undecided: 100})),
    "100, and an answer": (socket, said) => socket.event({id: idOf(said), undecided: 100}, {answer: {ok: true}, at: place(1), id: idOf(said)}),
    "100, and no more": (socket, said) => (socket.tell({id: idOf(said), undecided: 100}), socket.end()),
  };
  for (const [what, play] of Object.entries(plays)) {
    const [db, first] = await entered(t, {}, place(0), TWO);
    const [[done], [said]] = await written(db, first, 1);
    play(first, said);
    const [again, ...none] = await next();
    assert.deepEqual([went(), withoutId(again), none], ["ot", withoutId(said), []], what);
    Fake.last.event({answer: {ok: true}, at: place(1), id: idOf(again)});
    assert.deepEqual(await done, {ok: true}, what);
    db.end();
  }
  const [db, first] = await entered(t, {}, place(0), TWO);
  const [[done], [said]] = await written(db, first, 1);
  first.event({answer: {ok: true}, at: place(1), id: idOf(said)}, {id: idOf(said), undecided: 100});
  assert.deepEqual([await done, await next(1)], [{ok: true}, []]);
});

test("a gateway that never says that its 100 is settled holds a write no longer than others", async (t) => {
  const [db, first] = await entered(t, {patience: 1000, silence: 1e9}, place(0), TWO);
  const [[done], [said]] = await written(db, first, 1);
  first.tell({id: idOf(said), undecided: 100});
  const fault = done.catch((why) => why);
  await pause(1000);
  assert.equal((await fault).code, 100);
});
