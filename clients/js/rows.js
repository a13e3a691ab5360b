// Relations that a client follows, and their users: rows that pass `where`, in an order, and what one event changes of them.
import {compare, NotSent, text, ViewdError} from "./values.js";

// The order of rows: by the columns that are named, "-" in front for the largest first, and then by all columns from the left.
function orderOf(words, columns) {
  const named = words.map((word) => word.startsWith("-") ? [word.slice(1), -1] : [word, 1]);
  for (const [name] of named) {
    if (!columns.some(([it]) => it === name)) throw new ViewdError(`order: there is no column ${name}`);
  }
  const keys = [...named, ...columns.map(([name]) => [name, 1])];
  return (one, other) => {
    for (const [name, sign] of keys) {
      const found = compare(one[name], other[name]);
      if (found) return found * sign;
    }
    return 0;
  };
}

// Where the row stands in rows of that order, or is to stand.
function placeOf(row, rows, order) {
  let [from, to] = [0, rows.length];
  while (from < to) {
    const middle = (from + to) >> 1;
    if (order(rows[middle], row) < 0) from = middle + 1;
    else to = middle;
  }
  return from;
}

const EMPTY = {int: 0, text: "", flag: false}; // what stands in the place of null

/** The columns that are seen, each with its place. With `nulls` a flag NAME_null right behind NAME is none of them, and says whether NAME is null. */
export function seenOf(columns, nulls) {
  const seen = [];
  for (let at = 0; at < columns.length; at++) {
    const [name, kind] = columns[at], [next, flag] = columns[at + 1] ?? [];
    const mayBeNull = Boolean(nulls) && next === `${name}_null` && flag === "flag";
    seen.push({name, kind, at, mayBeNull});
    if (mayBeNull) at++;
  }
  return seen;
}

/** Their names and kinds. */
export const pairsOf = (columns, nulls) => nulls ? seenOf(columns, nulls).map(({name, kind}) => [name, kind]) : columns;

const narrow = (number) => Number.isSafeInteger(Number(number)) ? Number(number) : number;

/** A relation as one user of it sees it: the rows that pass `where`, in an order, the first `limit` of them. */
export class Live {
  /** The rows now, each different row once. A new array wherever they change, so that it can be compared by `===`. */
  rows = [];
  /** How many rows pass `where`, without the limit. */
  total = 0;
  /** `waiting` for the first rows, `live`, `stale` (the rows may be old), `refused` (see `why`) or `closed`. */
  state = "waiting";
  /** Where it is refused: the `Refused`, or `privilege` or `limit` where it was ended. */
  why = null;
  #relation; #how; #order = null; #all = []; #listeners = new Set(); #report; #ready; #settle;

  constructor(relation, how, report) {
    this.#relation = relation;
    this.#how = {...how, order: [how.order ?? []].flat()};
    this.#report = report;
    this.#ready = new Promise((resolve, reject) => this.#settle = {resolve, reject});
    this.#ready.catch(() => {});
  }

  /** The relation's name. */
  get on() {
    return this.#relation.on;
  }

  /** Pairs of a name and a kind, or null where they are not known yet. */
  get columns() {
    return this.#relation.columns;
  }

  /** Is kept with the rows once the first are there; refused where the relation is, or is closed before. */
  get ready() {
    return this.#ready;
  }

  /** How many copies of a row there are. */
  copies(row) {
    return this.#relation.copies(row);
  }

  /** Calls the listener behind each change of the rows or the state. What it returns takes the listener back. */
  subscribe = (listener) => {
    const own = () => listener(this);
    this.#listeners.add(own);
    return () => void this.#listeners.delete(own);
  };

  /** Gives it back: the rows stay as they are, and nobody is called any more. */
  close() {
    if (this.state === "closed") return;
    this.state = "closed";
    this.#listeners.clear();
    this.#settle.reject(new NotSent(`${this.on} was closed`));
    this.#relation.leave(this);
  }

  /** Takes in rows that went and came, null where all are new, and the state. Whether that is something to this user. */
  take(state, why, changed) {
    if (state === "stale" && this.state === "waiting" && changed === undefined) return false; // it has no rows that could be old
    const {rows, total} = this;
    if (changed === null || changed && !this.#order) this.#anew();
    else if (changed) this.#apply(changed);
    if (this.state === state && this.why === why && this.rows === rows && this.total === total) return false;
    Object.assign(this, {state, why});
    if (state === "live") this.#settle.resolve(this.rows);
    if (state === "refused") this.#settle.reject(why instanceof Error ? why : new ViewdError(`${this.on} was ended: ${why}`));
    if (state === "closed") this.#settle.reject(new NotSent("the client has ended"));
    return true;
  }

  /** Calls the listeners. */
  tell() {
    for (const listener of [...this.#listeners]) this.#guard(listener);
  }

  #guard(act) {
    try {
      return act();
    } catch (why) {
      this.#report(why);
    }
  }

  #passes(row) {
    const {where} = this.#how;
    if (!where) return true;
    if (typeof where === "function") return this.#guard(() => where(row)) ?? false;
    return Object.entries(where).every(([name, value]) => row[name] === value || typeof row[name] === "number" && BigInt(row[name]) === value);
  }

  #anew() {
    const columns = this.columns ?? []; // none are known where it was refused
    this.#order = this.#guard(() => orderOf(columns.length ? this.#how.order : [], columns)) ?? orderOf([], columns);
    const {where} = this.#how, names = columns.length && typeof where === "object" ? Object.keys(where ?? {}) : [];
    for (const name of names) if (!columns.some(([it]) => it === name)) this.#report(new ViewdError(`where: there is no column ${name}`));
    this.#all = this.#relation.rows().filter((row) => this.#passes(row)).sort(this.#order);
    this.#cut();
  }

  // Few changes are put in their places, and many sorted anew.
  #apply({gone, come}) {
    const left = gone.filter((row) => this.#passes(row)), right = come.filter((row) => this.#passes(row));
    if (left.length + right.length === 0) return;
    if (left.length + right.length > 64) return this.#anew();
    for (const row of left) {
      const at = placeOf(row, this.#all, this.#order);
      if (this.#all[at] && this.#order(this.#all[at], row) === 0) this.#all.splice(at, 1);
    }
    for (const row of right) this.#all.splice(placeOf(row, this.#all, this.#order), 0, row);
    this.#cut();
  }

  #cut() {
    const fresh = this.#all.slice(0, this.#how.limit ?? Infinity);
    this.total = this.#all.length;
    if (fresh.length !== this.rows.length || fresh.some((row, at) => row !== this.rows[at])) this.rows = fresh;
  }
}

/** A relation that the client follows, for all its users by one subscription. */
export class Relation {
  columns = null;
  state = "waiting";
  why = null;
  sub = null;
  asked = false; // a subscribe is under way
  users = new Set();
  #nulls; #told = null; #seen = []; // the columns as the gateway has them, and as they are seen
  #held = new Map(); // from a row's text to {row, copies}
  #fresh = true; // all rows are new since they were last told of
  #isHalf = false; // an event is not settled: what is held may be half of it
  #old = new Map(); // what was held before another connection, whose rows are the same objects where they are there again
  #before = new Map(); // of rows that changed since then: whether they were there, and which
  #leave;

  constructor(on, leave, nulls) {
    this.on = on;
    this.#leave = leave;
    this.#nulls = nulls;
  }

  /** Its columns, as the gateway has them. */
  know(columns) {
    this.#told = columns;
    this.#seen = seenOf(columns, this.#nulls);
    this.columns = pairsOf(columns, this.#nulls);
  }

  rows() {
    return [...this.#held.values()].map((it) => it.row);
  }

  copies(row) {
    return narrow(this.#held.get(text(this.#folded(this.values(row))))?.copies ?? 0n);
  }

  // As they are seen, of values as the gateway has them.
  #folded(values) {
    return this.#nulls ? this.#seen.map(({at, mayBeNull}) => mayBeNull && values[at + 1] ? null : values[at]) : values;
  }

  /** The values of a row as the gateway has them, in the order of its columns. */
  values(row) {
    const values = Array.isArray(row) ? row : this.#inOrder(row);
    for (const value of values) {
      if (typeof value !== "number" || Number.isSafeInteger(value)) continue;
      throw new ViewdError(`${this.on}: ${value} is no whole number below 2^53; larger ones are BigInts`);
    }
    return values;
  }

  #inOrder(row) {
    if (!this.columns) throw new ViewdError(`the columns of ${this.on} are not known`);
    for (const name of Object.keys(row)) {
      if (!this.columns.some(([it]) => it === name)) throw new ViewdError(`${this.on} has no column ${name}`);
    }
    return this.#seen.flatMap(({name, kind, mayBeNull}) => {
      const value = Object.hasOwn(row, name) ? row[name] : undefined;
      if (value === undefined || value === null && !mayBeNull) throw new ViewdError(`${this.on}: the row has no value for ${name}`);
      return mayBeNull ? [value ?? EMPTY[kind], value === null] : [value];
    });
  }

  leave(user) {
    this.users.delete(user);
    if (!this.users.size) this.#leave(this);
  }

  begin({columns, sub}) {
    const old = text(columns) === text(this.#told) ? this.#held : new Map();
    this.know(columns);
    Object.assign(this, {sub, state: "live", why: null, asked: false});
    this.#isHalf = true;
    this.clear();
    this.#old = old;
  }

  clear() {
    this.#held = new Map();
    this.#before.clear();
    this.#fresh = true;
  }

  take(changes) {
    this.#isHalf = true;
    for (const [copies, told] of changes) {
      const values = this.#folded(told);
      const key = text(values), held = this.#held.get(key);
      const sum = (held?.copies ?? 0n) + BigInt(copies);
      if (!this.#fresh && !this.#before.has(key)) this.#before.set(key, held?.row ?? null);
      if (sum === 0n) this.#held.delete(key);
      else if (held) held.copies = sum;
      else this.#held.set(key, {row: this.#before.get(key) ?? this.#old.get(key)?.row ?? this.#row(values), copies: sum});
    }
  }

  /** Has the users take in what is new. Those to whom it is something. */
  show() {
    const changed = this.#fresh ? null : {gone: [], come: []};
    for (const [key, was] of this.#before) {
      const now = this.#held.get(key)?.row ?? null;
      if (was && !now) changed.gone.push(was);
      if (now && !was) changed.come.push(now);
    }
    this.#fresh = this.#isHalf = false;
    this.#old = new Map();
    this.#before.clear();
    return [...this.users].filter((user) => user.take(this.state, this.why, changed));
  }

  /** Has one who comes late take in what is there. */
  greet(user) {
    if (this.state !== "waiting" && !this.#isHalf) user.take(this.state, this.why, null);
  }

  /** The rows stay, and the state is another. The users to whom that is something. */
  become(state) {
    Object.assign(this, {state, why: null});
    return [...this.users].filter((user) => user.take(state, null, undefined));
  }

  #row(values) {
    return Object.freeze(Object.fromEntries(this.columns.map(([name], at) => [name, values[at]]))); // a column may be __proto__
  }
}
