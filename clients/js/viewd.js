// A client of viewd's gateway: relations that stay what the role may see, and writes as promises.
//
//   import {connect} from "viewd";
//   const db = connect("ws://127.0.0.1:8080/live", {token: () => askForToken()});
//   const open = db.live("tickets", {where: {open: true}, order: "-id", limit: 20});
//   open.subscribe(() => draw(open.rows));
//   await db.insert("tickets", {id: 7, agent: "mia", subject: "Hello", open: true});
//
// A write has a name, and is sent until it is answered: however often that is, it is done once.
// It has no dependency and needs no build step. docs/CLIENTS.md goes through it, and viewd.d.ts has its types.
import {Live, pairsOf, Relation} from "./rows.js";
import {NotSent, parse, Refused, text, Undecided, ViewdError} from "./values.js";

export {compare, NotSent, parse, Refused, text, Undecided, ViewdError} from "./values.js";

const BYTES = 65_463; // of a message, at most
const LIMIT = 17, TOO_MANY = 20, TOO_LONG = 22;
const WITHOUT_ID = new Set([1, 2, 22]); // refusals of what could not be read, so that its id is not known
const ELSEWHERE = 100; // undecided, and not carried out here: the gateway follows a log that others decide
const LATE = 102; // undecided: the holder has had more names since its place than are kept
const AGAIN = 104; // undecided now, and to be sent again as it is
const OPEN = 16; // writes by name that have no answer, at most: a gateway knows a holder's last 64 names, and one holder may have several clients
const BEHIND = 32; // names that may come behind a write which waits to be sent again: beyond 64 it would be forgotten
const UNKNOWN_TOKEN = 4401;

/** A connection to a gateway that is kept: where it goes, another is tried. `connect` makes one. There is one at a time, and a write that others
 * decide takes it along to the next address: so what a write changed is here when its promise is kept. A second connection for writes would spare
 * relations the move, and leave their rows behind the answers. */
class Db {
  /** The role that the token opens, or null where nobody is in. */
  role = null;
  /** The number of the protocol that the gateway speaks, or null if nobody is in, or it tells none. */
  protocol = null;
  /** `connecting` at first, `live`, `stale` (what is shown may be old, and another connection is tried) or `closed`. */
  state = "connecting";
  /** Why the last connection went, where something is known. */
  why = null;
  #urls; #left; #how; #socket = null; #tries = 0; #since = 0; #heard = 0; #timers = new Set(); #watch = null; #unknown = null; #again = null;
  #next = 1; // the id of the next message
  #asked = []; // messages without a reply, in their order
  #waiting = new Set(); // requests that were never sent, in their order
  #kept = new Set(); // writes by name that were sent, and are to be sent again, as the connection went before the answer, or it was no answer yet
  #late = []; // writes by name that were told in this connection that their place is too old
  #goes = false; // to the next address, as a write was told in this connection that others decide
  #place = null; // where names of the holder stand, as the gateway told it last; null if it tells none
  #welcome = null; // the role, until the line behind it is here
  #replied = []; // what is done when the event is settled
  #relations = new Map(); #bySub = new Map(); #changed = new Set(); #known = new Map(); #listeners = new Set(); #undo = [];

  constructor(urls, how) {
    this.#urls = urls; // the one in use is in front
    this.#left = urls.length; // are tried before the next wait
    this.#how = {silence: 30_000, patience: 30_000, shortest: 250, longest: 30_000, again: 30_000, ...how};
    this.#how.WebSocket ??= globalThis.WebSocket;
    if (!this.#how.WebSocket) throw new ViewdError("there is no WebSocket here: give one as the option WebSocket (Node has one from 22 on, and 20 by --experimental-websocket)");
    for (const [on, columns] of Object.entries(this.#how.columns ?? {})) this.#known.set(on, columns);
    this.#hear();
    this.#connect();
  }

  /** Calls the listener with each new state, and with why it came where something is known. What it returns takes it back. */
  onState(listener) {
    const own = (...what) => listener(...what);
    this.#listeners.add(own);
    return () => void this.#listeners.delete(own);
  }

  /** A relation that stays what the role may see. Users of one relation share one subscription. */
  live(on, how = {}) {
    if (this.state === "closed") throw new NotSent("the client has ended");
    let relation = this.#relations.get(on);
    if (!relation) {
      relation = new Relation(on, (it) => this.#giveBack(it), this.#how.nulls);
      this.#relations.set(on, relation);
      if (this.role) this.#subscribe(relation);
    }
    const live = new Live(relation, how, (why) => this.#report(why));
    relation.users.add(live);
    relation.greet(live);
    return live;
  }

  /** Adds copies of a row. */
  insert(on, row, {copies} = {}) {
    return this.write([{on, insert: row, copies}]);
  }

  /** Replaces copies of a row by ones with other values in some columns. */
  update(on, row, values, {copies} = {}) {
    return this.write([{on, update: [row, Array.isArray(values) ? values : {...row, ...values}], copies}]);
  }

  /** Removes copies of a row. */
  remove(on, row, {copies} = {}) {
    return this.write([{on, delete: row, copies}]);
  }

  /** Carries out all entries, or none. Each has `on` and one of `insert`, `delete` and `update`, with rows as objects or arrays. */
  async write(entries) {
    const columns = new Map();
    for (const {on, insert, delete: gone, update} of entries) {
      const rows = [insert, gone, ...(update ?? [])].filter((row) => row && !Array.isArray(row));
      if (rows.length && !columns.has(on)) columns.set(on, await this.#toldColumns(on));
    }
    const lines = entries.map(({on, insert, delete: gone, update, copies}) => {
      const relation = new Relation(on, null, this.#how.nulls);
      if (columns.has(on)) relation.know(columns.get(on));
      const line = {on, copies};
      if (insert) line.insert = relation.values(insert);
      if (gone) line.delete = relation.values(gone);
      if (update) line.update = update.map((row) => relation.values(row));
      return line;
    });
    return this.#request({do: "write", entries: lines}, true);
  }

  /** The columns of a relation: as the option `columns` or a subscribe has told them; else one subscribe asks. */
  async columns(on) {
    return pairsOf(await this.#toldColumns(on), this.#how.nulls);
  }

  async #toldColumns(on) {
    if (this.#known.has(on)) return this.#known.get(on);
    const asking = this.live(on);
    let timer;
    const late = new Promise((_, reject) => timer = this.#later(this.#how.patience, () => reject(new NotSent("there was no connection"))));
    try {
      await Promise.race([asking.ready, late]);
    } finally {
      this.#cancel(timer);
      asking.close();
    }
    return this.#known.get(on);
  }

  /** Any request of docs/PROTOCOL.md, without session and id. Its reply, once all that it changed is here. */
  async request(body) {
    if ("id" in body) throw new ViewdError("a request has its id from the client");
    return this.#request(body, false);
  }

  // A write by name is sent until it is answered, always by the same name, place and bytes.
  #request(body, byName) {
    return new Promise((resolve, reject) => {
      const longest = {id: Number.MAX_SAFE_INTEGER, ...(byName && {once: "_".repeat(22), at: `${"0".repeat(32)}.${2n ** 64n}`}), ...body};
      if (new TextEncoder().encode(text(longest)).length > BYTES) return reject(new Refused({error: TOO_LONG}));
      if (this.state === "closed") return reject(new NotSent("the client has ended"));
      const request = {body, byName, resolve, reject, name: null, at: null, rest: null, timer: null, end: null, isOver: false};
      this.#waiting.add(request);
      if (this.role) this.#flush();
      else this.#wait(request);
    });
  }

  #wait(request) {
    request.timer = this.#later(this.#how.patience, () => {
      this.#waiting.delete(request);
      request.reject(new NotSent("there was no connection"));
    });
  }

  /** Ends the client: what is under way is undecided, what waits is not sent, and relations are closed. */
  end() {
    this.#close("ended");
  }

  #report(why) {
    const say = this.#how.onError ?? globalThis.reportError ?? console.error;
    try {
      say(why);
    } catch (again) {
      console.error(again);
    }
  }

  #become(state) {
    this.state = state;
    this.#say();
  }

  #say() {
    for (const listener of [...this.#listeners]) {
      try {
        listener(this.state, this.why);
      } catch (fault) {
        this.#report(fault);
      }
    }
  }

  #later(wait, act) {
    const timer = setTimeout(() => {
      this.#timers.delete(timer);
      act();
    }, wait);
    this.#timers.add(timer);
    return timer;
  }

  #cancel(timer) {
    clearTimeout(timer);
    this.#timers.delete(timer);
  }

  // The browser tells when it has no network, has one again, or shows a page that slept.
  #hear() {
    const {addEventListener: listen, removeEventListener: forget} = globalThis;
    const on = (name, act) => {
      if (!listen) return;
      listen.call(globalThis, name, act);
      this.#undo.push(() => forget.call(globalThis, name, act));
    };
    on("offline", () => this.#lost("offline"));
    on("online", () => this.#now());
    on("pageshow", () => this.#check());
    on("visibilitychange", () => this.#check());
    this.#watch = setInterval(() => this.#check(), Math.min(5000, this.#how.silence / 4));
  }

  #check() {
    if (this.#socket && Date.now() - this.#heard > this.#how.silence) this.#lost("silent");
  }

  #now() {
    if (this.#again === null) return;
    this.#cancel(this.#again);
    this.#connect();
  }

  async #connect() {
    this.#again = null;
    const tried = this.#socket = {}; // in the socket's place until there is one
    this.#heard = Infinity; // a person may take long to give a token
    try {
      const token = typeof this.#how.token === "function" ? await this.#how.token() : this.#how.token;
      if (this.#socket !== tried) return;
      this.#open(token);
    } catch (why) {
      if (this.#socket === tried) this.#lost(String(why?.message ?? why));
    }
  }

  #open(token) {
    const socket = this.#socket = new this.#how.WebSocket(this.#urls[0]);
    this.#heard = Date.now();
    const is = () => this.#socket === socket;
    socket.onopen = () => is() && socket.send(token);
    socket.onmessage = ({data}) => is() && this.#take(data);
    socket.onerror = () => {};
    socket.onclose = ({code, reason}) => {
      if (!is()) return;
      if (code !== UNKNOWN_TOKEN) return this.#lost(reason || `the connection ended (${code})`);
      const why = reason || "the token opens no role", fresh = typeof this.#how.token === "function" && token !== this.#unknown;
      this.#unknown = token;
      if (fresh) this.#lost(why);
      else this.#close(why);
    };
  }

  // What was under way is undecided. Rows stay, and another connection is tried.
  #drop() {
    const socket = this.#socket;
    this.#socket = null;
    try {
      socket?.close?.();
    } catch { /* it was not open */ }
    if (this.role && Date.now() - this.#since > 10_000) [this.#tries, this.#left] = [0, this.#urls.length];
    // Who was late is told its place anew by the same gateway: another may know an older one.
    if (!this.#late.length) this.#urls.push(this.#urls.shift());
    this.#goes = false;
    this.role = this.protocol = this.#place = this.#welcome = null;
    this.#bySub.clear();
    this.#changed.clear();
    for (const act of this.#replied.splice(0)) act();
    for (const {write, reject} of this.#asked.splice(0)) {
      if (write) this.#kept.add(write);
      else reject(new Undecided());
    }
    if (this.#late.length) this.#waiting = new Set([...this.#late.splice(0), ...this.#waiting]);
  }

  #lost(why) {
    if (this.state === "closed" || this.#again !== null) return;
    this.why = why;
    this.#drop();
    this.#again = this.#later(--this.#left > 0 ? 0 : this.#pause(), () => this.#connect());
    for (const request of this.#waiting) if (request.timer === null) this.#wait(request);
    const relations = [...this.#relations.values()];
    for (const relation of relations) Object.assign(relation, {sub: null, asked: false});
    this.#tell(relations.flatMap((relation) => relation.state === "live" ? relation.become("stale") : []));
    if (this.state === "live") this.#become("stale");
  }

  // After a round over all addresses.
  #pause() {
    this.#left = this.#urls.length;
    return Math.min(this.#how.longest, this.#how.shortest * 2 ** this.#tries++) * (0.5 + Math.random() / 2);
  }

  #close(why) {
    if (this.state === "closed") return;
    Object.assign(this, {state: "closed", why}); // from here on a listener that asks for more is refused
    this.#drop();
    this.#again = null;
    clearInterval(this.#watch);
    for (const timer of this.#timers) clearTimeout(timer);
    for (const undo of this.#undo.splice(0)) undo();
    for (const {reject} of this.#kept) reject(new Undecided());
    for (const {reject} of this.#waiting) reject(new NotSent(why));
    this.#kept.clear();
    this.#waiting.clear();
    const relations = [...this.#relations.values()];
    this.#relations.clear();
    this.#tell(relations.flatMap((relation) => relation.become("closed")));
    this.#say();
  }

  #ask(body, resolve, reject, first = () => {}) {
    const id = this.#next++;
    this.#asked.push({id, resolve, reject, first});
    this.#socket.send(text({id, ...body})); // the id stands in front
  }

  // By the name and the place that it had when it was first sent, and by the same bytes.
  #askByName(write) {
    if (write.name === null) Object.assign(write, {name: newName(), at: this.#place, rest: text(write.body).slice(1), sent: 0});
    write.sent++;
    const id = this.#next++;
    this.#asked.push({id, write, resolve: write.resolve, reject: write.reject, first: () => {}});
    this.#socket.send(`{"id":${id},"once":"${write.name}","at":"${write.at}",${write.rest}`);
  }

  // Sends what was never sent, in its order, as far as it may be.
  #flush() {
    for (const request of this.#waiting) {
      const byName = request.byName && this.#place !== null;
      if (this.#late.length || this.#goes || byName && (this.#asked.filter(({write}) => write).length + this.#kept.size >= OPEN || this.#isFar())) return;
      this.#waiting.delete(request);
      this.#cancel(request.timer);
      if (byName) this.#askByName(request);
      else this.#ask(request.body, request.resolve, request.reject);
    }
  }

  #isFar() {
    const count = (at) => BigInt(at.split(".")[1]);
    return [...this.#kept].some(({at}) => count(this.#place) - count(at) >= BEHIND);
  }

  // What was sent before and has no answer is sent again. A gateway that tells no place would not know it by its name.
  #sendAgain() {
    const kept = [...this.#kept];
    this.#kept.clear();
    for (const write of kept) {
      if (this.#place !== null) this.#askByName(write);
      else write.reject(new Undecided());
    }
  }

  #subscribe(relation) {
    relation.asked = true;
    const isOurs = () => this.#relations.get(relation.on) === relation;
    const begin = (reply) => { // with the reply, as changes stand right behind it
      this.#known.set(relation.on, reply.columns);
      if (!isOurs()) return this.#unsubscribe(reply.sub);
      relation.begin(reply);
      this.#bySub.set(reply.sub, relation);
      this.#changed.add(relation);
    };
    this.#ask({do: "subscribe", on: relation.on}, () => {}, (why) => {
      relation.asked = false;
      if (!(why instanceof Refused) || !isOurs()) return;
      relation.clear();
      Object.assign(relation, {state: "refused", why});
      this.#tell(relation.show());
      if (why.code === LIMIT || why.code === TOO_MANY) this.#after(relation);
    }, begin);
  }

  #unsubscribe(sub) {
    this.#bySub.delete(sub);
    // ended or lost meanwhile is as well; and where there is room again, those who found none are tried
    this.#ask({do: "unsubscribe", sub}, () => this.#retry((it) => it.why?.code === TOO_MANY), () => {});
  }

  #giveBack(relation) {
    if (this.#relations.get(relation.on) !== relation) return;
    this.#relations.delete(relation.on);
    this.#changed.delete(relation);
    if (relation.sub !== null && this.role) this.#unsubscribe(relation.sub);
  }

  // Nobody tells when a relation is small enough, or when there is room: so it is tried again.
  #after(relation) {
    this.#later(this.#how.again, () => this.#retry((it) => it === relation));
  }

  #retry(which) {
    if (!this.role) return;
    for (const relation of this.#relations.values()) {
      if (relation.state === "refused" && !relation.asked && which(relation)) this.#subscribe(relation);
    }
  }

  #take(data) {
    this.#heard = Date.now();
    const socket = this.#socket;
    for (const line of data.split("\n")) {
      if (!line || this.#socket !== socket) continue;
      try {
        this.#one(parse(line));
      } catch (why) {
        this.#lost(`a line that is not understood: ${why.message}`);
      }
    }
  }

  #one(said) {
    const isPlace = "at" in said && "names" in said;
    if (isPlace) this.#place = said.at;
    if (this.#welcome) this.#entered(); // by the line behind the role
    if (isPlace) return;
    if (said.settled) this.#settle();
    else if ("ok" in said || "error" in said || "answer" in said || "undecided" in said) this.#reply(said);
    else if (said.changes) this.#changes(said);
    else if (said.granted) this.#replied.push(() => this.#retry(() => true));
    else if (said.role && !this.role) this.#welcome = said;
    // alive, and what this client does not know, says nothing more than that the gateway is there
  }

  #entered() {
    [this.role, this.protocol] = [this.#welcome.role, this.#welcome.protocol ?? null];
    this.#welcome = null;
    this.#since = Date.now();
    for (const request of this.#waiting) { // for others' answers from here on
      this.#cancel(request.timer);
      request.timer = null;
    }
    for (const relation of this.#relations.values()) this.#subscribe(relation);
    this.#sendAgain();
    this.#flush();
    this.why = null;
    this.#become("live");
  }

  #changes({changes, sub, ended}) {
    const relation = this.#bySub.get(sub);
    if (!relation) return; // its last user has gone
    relation.take(changes);
    this.#changed.add(relation);
    if (!ended) return;
    this.#bySub.delete(sub);
    Object.assign(relation, {state: "refused", why: ended, sub: null});
    if (ended === "limit") this.#after(relation);
  }

  #reply(said) {
    const asked = this.#asked[0];
    const isIts = asked && (said.id === asked.id || !("id" in said) && WITHOUT_ID.has(said.error));
    if (!isIts) return this.#lost("a reply to another request");
    this.#asked.shift();
    if (said.at !== undefined) this.#place = said.at;
    if (said.undecided === AGAIN && asked.write) return this.#keep(asked.write);
    if (said.undecided === ELSEWHERE && asked.write && this.#urls.length > 1 && !asked.write.isOver) return this.#goOn(asked.write);
    if (said.undecided === LATE && asked.write?.sent === 1) return void this.#late.push(Object.assign(asked.write, {name: null, timer: null}));
    if ("undecided" in said) return void this.#replied.push(() => asked.reject(new Undecided(said.undecided)));
    const reply = said.answer ?? said;
    if (reply.ok) asked.first(reply);
    this.#replied.push(() => reply.ok ? asked.resolve(reply) : asked.reject(new Refused(reply)));
  }

  #keep(write) {
    this.#cancel(write.end); // here it is decided
    Object.assign(write, {end: null, isOver: false});
    if (write.sent === 1) write.sent = 0; // it was not carried out
    this.#kept.add(write);
    this.#later(this.#how.again, () => {
      if (!this.role || !this.#kept.delete(write)) return; // it was sent again behind another connection
      this.#askByName(write);
    });
  }

  // All goes to the next address once what was asked here is answered.
  #goOn(write) {
    if (write.sent === 1) write.sent = 0; // it was not carried out
    this.#kept.add(write);
    this.#goes = true;
    write.end ??= this.#later(this.#how.patience, () => {
      write.isOver = true;
      if (this.#kept.delete(write)) write.reject(new Undecided(ELSEWHERE));
    });
  }

  #settle() {
    const changed = [...this.#changed];
    this.#changed.clear();
    this.#tell(changed.flatMap((relation) => relation.show()));
    for (const act of this.#replied.splice(0)) act();
    if (this.#goes && !this.#asked.length) this.#lost("it follows a log that others decide");
    // What was sent once, and came too late, was not carried out. Who comes anew is told another place, and sends it by another name.
    if (this.#late.length && !this.#asked.length) this.#lost("others of its holder have had many names");
    if (this.role) this.#flush();
  }

  // Listeners are called when all relations have taken in what is new.
  #tell(users) {
    for (const user of users) user.tell();
  }
}

// 128 random bits, in letters of RFC 4648, section 5.
function newName() {
  const bytes = crypto.getRandomValues(new Uint8Array(16));
  return btoa(String.fromCharCode(...bytes)).slice(0, 22).replaceAll("+", "-").replaceAll("/", "_");
}

// The address of a WebSocket: http becomes ws, and a page may name a path of its own.
function address(url) {
  const whole = new URL(url, globalThis.location?.href);
  whole.protocol = {"http:": "ws:", "https:": "wss:"}[whole.protocol] ?? whole.protocol;
  return whole.href;
}

/** A client of the gateway at the address, or of those of one log at several. `token` is a text, or a function that gives one, or a promise of it,
 * for each try. */
export function connect(url, options) {
  if (!options?.token) throw new ViewdError("there is no token");
  const urls = [url].flat().map(address);
  if (!urls.length) throw new ViewdError("there is no address");
  return new Db(urls, options);
}
