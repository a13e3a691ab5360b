// A gateway's end of a WebSocket, written from docs/PROTOCOL.md, whose lines a test says.
import assert from "node:assert/strict";
import {connect} from "../viewd.js";

/** Stands in WebSocket's place. `all` are those that the client has made, the last one is `Fake.last`. */
export class Fake {
  static all = [];
  static get last() {
    return Fake.all.at(-1);
  }

  sent = [];
  closed = false;
  constructor(url) {
    this.url = url;
    Fake.all.push(this);
  }

  send(data) {
    this.sent.push(data);
  }

  close() {
    this.closed = true;
  }

  /** Lines of one message: texts as they are, others as JSON. */
  tell(...lines) {
    this.onmessage({data: lines.map((line) => typeof line === "string" ? line : JSON.stringify(line)).join("\n") + "\n"});
  }

  /** Lines with `settled` behind them. */
  event(...lines) {
    this.tell(...lines, {settled: true});
  }

  /** Lets the client in, and tells where its holder's names stand, if the gateway knows names. */
  enter(role = "mia", at = null) {
    this.onopen();
    this.event({role}, ...(at === null ? [] : [{at, names: 64}]));
    return this;
  }

  /** Closes from the gateway's side. */
  end(code = 1006, reason = "") {
    this.onclose({code, reason});
  }

  /** What was said behind the token and is not taken yet. */
  take() {
    return this.sent.splice(0).filter((it) => it.startsWith("{"));
  }

  /** Takes one message, of this form but for its id, and returns the id. */
  asked(body) {
    const [said] = this.sent.splice(0, 1);
    const {id, ...rest} = JSON.parse(said);
    assert.match(said, /^\{"id":\d+,/);
    assert.deepEqual(rest, body);
    return id;
  }
}

export const NOTES = [["id", "int"], ["who", "text"]];

/** Waits until what is under way among promises is done. */
export const turn = () => new Promise((done) => setImmediate(done));

// Time passes where a test pauses, and nowhere else: so no slow host changes what it sees.
let now = 0, last = 0;
const timers = new Map();
const timer = (act, wait, each) => (timers.set(++last, {at: now + wait, act, each}), last);
globalThis.setTimeout = (act, wait = 0) => timer(act, wait, 0);
globalThis.setInterval = (act, wait) => timer(act, wait, wait);
globalThis.clearTimeout = globalThis.clearInterval = (id) => timers.delete(id);
Date.now = () => now;

/** Lets so many milliseconds pass. */
export async function pause(wait) {
  const end = now + wait;
  for (;;) {
    await turn();
    const [next] = [...timers].filter(([, {at}]) => at <= end).sort(([, one], [, other]) => one.at - other.at);
    if (!next) break;
    const [id, due] = next;
    now = due.at;
    if (due.each) due.at += due.each;
    else timers.delete(id);
    due.act();
  }
  now = end;
}

/** A client whose fake gateway has let it in, and that is ended behind the test. */
export async function entered(t, how = {}, at = null, url = "ws://gateway/live") {
  Fake.all = [];
  const faults = [];
  const db = connect(url, {token: "t", WebSocket: Fake, onError: (why) => faults.push(why), shortest: 4, ...how});
  t.after(() => {
    db.end();
    assert.deepEqual(faults, []);
  });
  await turn();
  Fake.last.enter("mia", at);
  Fake.last.sent = [];
  return [db, Fake.last];
}

/** Answers a subscribe to the relation, with these changes. */
export function follow(socket, sub, changes, on = "notes", columns = NOTES) {
  const id = socket.asked({do: "subscribe", on});
  socket.event({columns, id, ok: true, sub}, ...(changes.length ? [{changes, sub}] : []));
}
