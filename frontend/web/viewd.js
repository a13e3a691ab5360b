// A client of the gateway: requests that answer with promises, and live relations that stay what the role may see.
//
//   const db = new Viewd(url, token, {onState: (state, more) => ..});   connecting, live, waiting, refused
//   await db.request({do: "write", entries: [..]});    the reply, once all that it changed is here; else Refused or Lost
//   const live = db.live("tickets", (live, changes) => ..);
//   db.close(live);
//
// A live relation is a bag of rows: live.rows is a Map from a row's text to {row, copies}, and live.state is
//   waiting (no answer yet), live, refused (live.why: the reply), ended (live.why: privilege or limit).
// Its listener is called when a request is settled, so it never sees half of one; `changes` are pairs of copies and row,
// null where the rows are all new. Across a lost connection, an end and a grant it subscribes again by itself. A gateway that says
// nothing for `silence` milliseconds is left, and tried again: it says each 20 seconds that it is there.
import {Shape} from "./shape.js";

const NAMES = {1: "bad json", 2: "bad request", 3: "no session", 4: "session in use", 5: "unknown role", 6: "name taken",
  7: "unknown relation", 8: "not a table", 9: "bad row", 10: "bad query", 11: "not administrator", 12: "not owner",
  13: "missing privilege", 14: "no permissive policy", 15: "restrictive policy failed", 16: "no such row", 17: "limit",
  18: "unknown policy", 19: "unknown subscription", 20: "too many", 22: "line too long",
  23: "membership loop"};
const LIMIT = 17;
const AGAIN = 30_000; // milliseconds after which a relation that was too large is tried again: nobody tells of that

export class Refused extends Error {
  constructor(reply) {
    const more = ["on", "privilege", "policy", "check", "entry", "key", "why", "place"].filter((key) => key in reply);
    super([`${NAMES[reply.error]} (${reply.error})`, ...more.map((key) => `${key} ${reply[key]}`)].join(", "));
    this.reply = reply;
  }
}

// The connection went before the reply came: the request was carried out or not, and nobody can tell.
export class Lost extends Error {}

// viewd has 64 bits and a number of JavaScript 53. Those beyond become BigInts, so that a row is written back as it is.
// Where a browser cannot tell the digits of a number (JSON.parse with source), they are put between quotes first; texts are
// passed over whole.
const LONG = /"(?:[^"\\]|\\.)*"|-?\d{16,}/g;
const NUL = "\u0000"; // no text of viewd's has it
const MARK = `${NUL}${Math.random()} `; // and what a person may have typed is not this
const WRITTEN = new RegExp(`"\\\\u0000${MARK.slice(1).replace(".", "\\.")}(-?\\d+)"`, "g");
export function parse(line) {
  if (!/\d{16}/.test(line)) return JSON.parse(line);
  const marked = line.replace(LONG, (found) => found[0] === '"' || Number.isSafeInteger(Number(found)) ? found : `"\\u0000${found}"`);
  return JSON.parse(marked, (_, value) => typeof value === "string" && value.startsWith(NUL) ? BigInt(value.slice(1)) : value);
}
export function text(value) {
  const marked = JSON.stringify(value, (_, it) => typeof it === "bigint" ? MARK + it : it);
  return marked.replaceAll(WRITTEN, "$1");
}

// What throws in a page's own function is told to the page, and keeps no line behind it from being read.
const harmless = (listener) => (...words) => {
  try {
    listener(...words);
  } catch (why) {
    setTimeout(() => {
      throw why;
    });
  }
};

class Live {
  rows = new Map();
  state = "waiting";
  why = null;
  sub = null;
  pending = []; // changes of a request that is not settled
  fresh = true; // nothing was shown since it was subscribed
  constructor(on, listener) {
    Object.assign(this, {on, listener: harmless(listener)});
  }

  take(changes) {
    for (const change of changes) {
      const [copies, row] = change, key = text(row);
      const sum = BigInt(this.rows.get(key)?.copies ?? 0) + BigInt(copies);
      if (sum) this.rows.set(key, {row, copies: Number.isSafeInteger(Number(sum)) ? Number(sum) : sum});
      else this.rows.delete(key);
      this.pending.push(change);
    }
  }

  show() {
    const changes = this.fresh ? null : this.pending;
    this.pending = [];
    this.fresh = false;
    this.listener(this, changes);
  }
}

export class Viewd {
  role = null;
  shape = null; // for an administrator
  #url; #token; #ws = null; #on; #silence; #tries = 0;
  #heard = 0; // when something came last
  #asked = []; // requests without a reply: replies come in their order
  #replied = []; // what to do when the request is settled
  #lives = new Set();
  #bySub = new Map();
  #changed = new Set();
  #reshaped = false; // since the last event was settled

  constructor(url, token, {onState = () => {}, onShape = () => {}, onLines = () => {}, silence = 45_000} = {}) {
    this.#url = url;
    this.#token = token;
    this.#on = {state: harmless(onState), shape: harmless(onShape), lines: harmless(onLines)};
    this.#silence = silence;
    setInterval(() => this.#watch(), Math.min(5000, silence / 4));
    addEventListener("offline", () => this.#leave("This browser has no network."));
    this.#connect();
  }

  request(body) {
    return new Promise((resolve, reject) => {
      if (this.role) this.#ask(body, resolve, reject);
      else reject(new Lost("not connected, and not sent"));
    });
  }

  live(on, listener) {
    const live = new Live(on, listener);
    this.#lives.add(live);
    if (this.role) this.#subscribe(live);
    return live;
  }

  close(live) {
    this.#lives.delete(live);
    if (live.sub !== null) this.#unsubscribe(live.sub);
  }

  #ask(body, resolve, reject, first = () => {}) {
    this.#asked.push({resolve, reject, first});
    this.#ws.send(text(body));
  }

  #connect() {
    this.#on.state("connecting");
    const ws = this.#ws = new WebSocket(this.#url);
    this.#heard = Date.now();
    ws.onopen = () => ws.send(this.#token);
    ws.onmessage = ({data}) => {
      this.#heard = Date.now();
      this.#take(data.split("\n").filter((line) => line));
    };
    ws.onclose = ({code, reason}) => this.#lost(code, reason);
  }

  #watch() {
    if (Date.now() - this.#heard > this.#silence) this.#leave("The gateway is silent.");
  }

  #leave(why) {
    const ws = this.#ws;
    if (!ws) return;
    ws.onopen = ws.onmessage = ws.onclose = null;
    ws.close();
    this.#lost(1006, why);
  }

  #lost(code, reason) {
    this.role = this.#ws = null;
    this.#bySub.clear();
    this.#changed.clear();
    for (const act of this.#replied.splice(0)) act();
    for (const {reject} of this.#asked.splice(0)) reject(new Lost("the connection went, so it may or may not have been done"));
    for (const live of this.#lives) Object.assign(live, {state: "waiting", sub: null});
    if (code === 4401) return this.#on.state("refused", reason);
    const wait = Math.round(Math.min(5000, 250 * 2 ** this.#tries++) * (0.5 + Math.random() / 2));
    this.#on.state("waiting", reason);
    setTimeout(() => this.#connect(), wait);
  }

  #subscribe(live) {
    live.state = "waiting";
    const begin = ({sub}) => { // with the reply, as changes stand right behind it
      if (!this.#lives.has(live)) return this.#unsubscribe(sub);
      Object.assign(live, {state: "live", why: null, sub, fresh: true, rows: new Map(), pending: []});
      this.#bySub.set(sub, live);
      this.#changed.add(live);
    };
    this.#ask({do: "subscribe", on: live.on}, () => {}, (why) => {
      if (why instanceof Lost || !this.#lives.has(live)) return;
      Object.assign(live, {state: "refused", why: why.reply, fresh: true, rows: new Map(), pending: []});
      live.show();
      if (why.reply.error === LIMIT) this.#later(live);
    }, begin);
  }

  #unsubscribe(sub) {
    this.#bySub.delete(sub);
    this.request({do: "unsubscribe", sub}).catch(() => {}); // ended or lost meanwhile, which is as well
  }

  #later(live) {
    setTimeout(() => this.#again((it) => it === live), AGAIN);
  }

  #again(which) {
    for (const live of this.#lives) {
      if (this.role && which(live) && (live.state === "refused" || live.state === "ended")) this.#subscribe(live);
    }
  }

  #take(lines) {
    for (const line of lines) this.#one(parse(line));
    this.#on.lines(lines);
  }

  #one(said) {
    if (said.alive) return;
    if (said.settled) this.#settle();
    else if (said.role) this.#entered(said.role);
    else if (said.changes) this.#changes(said);
    else if (said.granted) this.#replied.push(() => this.#again(() => true));
    else if (said.made) this.#made(said.made);
    else if (said.ok || said.error) this.#reply(said); // any other line is one that a later gateway has
  }

  #entered(role) {
    this.role = role;
    this.shape = role === "admin" ? new Shape() : null;
    this.#reshaped = role === "admin";
    this.#tries = 0;
    this.#on.state("live");
    for (const live of this.#lives) this.#subscribe(live);
  }

  #made(request) {
    this.shape.apply(request);
    this.#reshaped = true;
  }

  #changes({changes, sub, ended}) {
    const live = this.#bySub.get(sub);
    if (!live) return; // its reader has closed it
    live.take(changes);
    this.#changed.add(live);
    if (!ended) return;
    this.#bySub.delete(sub);
    Object.assign(live, {state: "ended", why: ended, sub: null});
    if (ended === "limit") this.#later(live);
  }

  #reply(said) {
    const {resolve, reject, first} = this.#asked.shift();
    if (said.ok) first(said);
    this.#replied.push(() => said.ok ? resolve(said) : reject(new Refused(said)));
  }

  #settle() {
    const changed = [...this.#changed];
    this.#changed.clear();
    for (const live of changed) live.show();
    if (this.#reshaped) this.#on.shape(this.shape);
    this.#reshaped = false;
    for (const act of this.#replied.splice(0)) act();
  }
}
