/** Types of viewd.js. `viewd-client types --typescript` writes the interface of a database's relations. */

/** A number (BigInt beyond 2^53), a text or a flag. */
export type Value = number | bigint | string | boolean;
export type Kind = "int" | "text" | "flag";
export type Columns = ReadonlyArray<readonly [name: string, kind: Kind]>;
/** A row by the names of its columns. With the option `nulls` a value may be null. */
export type Row = {readonly [column: string]: Value | null};
/** A row as a list, with a value for each column of the gateway's in their order. */
export type Values = readonly Value[];
/** Relations by their names, each with the type of its rows. */
export type Relations = {[relation: string]: Row};
export type Name<R> = keyof R & string;

/** What this client throws. */
export class ViewdError extends Error {}

/** The gateway refused the request, and nothing was changed. */
export class Refused extends ViewdError {
  constructor(reply: Reply);
  /** The number of the refusal in docs/PROTOCOL.md. */
  readonly code: number;
  readonly reply: Reply;
}

/**
 * Nobody can tell whether the request was carried out; it was whole, or not at all. Look at the rows, and make another request if they do not
 * have it. Of a write 102 and 103 are final, as what came of it is not known any more.
 */
export class Undecided extends ViewdError {
  constructor(code?: number | null);
  /** The number in docs/PROTOCOL.md, or null if the connection went. */
  readonly code: number | null;
}

/** The request was not sent, so it was not carried out. */
export class NotSent extends ViewdError {
  constructor(why: string);
}

export interface Reply {
  readonly ok?: true;
  readonly error?: number;
  readonly [key: string]: unknown;
}

/** `connecting` at first, `live`, `stale` (what is shown may be old, and another connection is tried), `closed`. */
export type State = "connecting" | "live" | "stale" | "closed";
/** `waiting` for the first rows, `live`, `stale` (the rows may be old), `refused` (see `why`), `closed`. */
export type LiveState = "waiting" | "live" | "stale" | "refused" | "closed";

export interface How<T> {
  /** Values that columns must have, or a function that says whether a row passes. */
  where?: Partial<T> | ((row: Readonly<T>) => boolean);
  /** Columns by which rows are ordered, `-` in front for the largest first; then by all columns from the left. */
  order?: Order<T> | ReadonlyArray<Order<T>>;
  /** How many rows at most are shown. */
  limit?: number;
}
export type Order<T> = Name<T> | `-${Name<T>}`;

/** A relation as one user of it sees it. */
export interface Live<T> {
  readonly on: string;
  /** The rows now, each different row once. A new array wherever they change, so that it can be compared by `===`. */
  readonly rows: ReadonlyArray<Readonly<T>>;
  /** How many rows pass `where`, without the limit. */
  readonly total: number;
  readonly state: LiveState;
  /** Where it is refused: the refusal, or why it was ended. */
  readonly why: Refused | "privilege" | "limit" | null;
  readonly columns: Columns | null;
  /** Is kept with the rows once the first are there; refused where the relation is, or is closed before. */
  readonly ready: Promise<ReadonlyArray<Readonly<T>>>;
  /** How many copies of a row there are. */
  copies(row: Readonly<T> | Values): number | bigint;
  /** Calls the listener behind each change of the rows or the state. What it returns takes the listener back. */
  subscribe(listener: (live: Live<T>) => void): () => void;
  /** Gives it back: the rows stay as they are, and nobody is called any more. */
  close(): void;
}

export interface Copies {
  /** How many copies, 1 where it is left out. */
  copies?: number | bigint;
}

/** One entry of a write. */
export type Entry<R extends object = Relations> = {
  [K in Name<R>]: {on: K} & Copies & ({insert: R[K] | Values} | {delete: R[K] | Values} | {update: readonly [R[K] | Values, R[K] | Values]})
}[Name<R>];

/** A connection to a gateway that is kept: where it goes, another is tried. */
export interface Db<R extends object = Relations> {
  /** The role that the token opens, or null where nobody is in. */
  readonly role: string | null;
  /** The number of the protocol that the gateway speaks, or null if nobody is in, or it tells none. */
  readonly protocol: number | null;
  readonly state: State;
  /** Why the last connection went, where something is known. */
  readonly why: string | null;
  /** Calls the listener with each new state, and why it came. What it returns takes it back. */
  onState(listener: (state: State, why: string | null) => void): () => void;
  /** A relation that stays what the role may see. Users of one relation share one subscription. */
  live<K extends Name<R>>(on: K, how?: How<R[K]>): Live<R[K]>;
  /** Adds copies of a row. */
  insert<K extends Name<R>>(on: K, row: R[K] | Values, how?: Copies): Promise<Reply>;
  /** Replaces copies of a row by ones with other values in some columns. */
  update<K extends Name<R>>(on: K, row: R[K] | Values, values: Partial<R[K]> | Values, how?: Copies): Promise<Reply>;
  /** Removes copies of a row. */
  remove<K extends Name<R>>(on: K, row: R[K] | Values, how?: Copies): Promise<Reply>;
  /** Carries out all entries, or none. By its name it is sent until it is answered, if the gateway knows names, and is done once. */
  write(entries: ReadonlyArray<Entry<R>>): Promise<Reply>;
  /** The columns of a relation: as the option `columns` or a subscribe has told them; else one subscribe asks. */
  columns(on: Name<R>): Promise<Columns>;
  /** Any request of docs/PROTOCOL.md, without session and id. */
  request(body: {do: string; [key: string]: unknown}): Promise<Reply>;
  /** Ends the client: what is under way is undecided, what waits is not sent, and relations are closed. */
  end(): void;
}

export interface Options {
  /** The token, or a function that gives one for each try. */
  token: string | (() => string | Promise<string>);
  /** Columns that are known beforehand, for a role that writes to what it may not read. */
  columns?: {[relation: string]: Columns};
  /** A flag `NAME_null` right behind a column `NAME` is no column of its own, and says whether `NAME` is null. */
  nulls?: boolean;
  /** Told what a listener, `where` or `order` throws; the console where it is left out. */
  onError?: (why: unknown) => void;
  /** Milliseconds without a line, after which the connection is given up; 30,000. The gateway says one each 20 seconds. */
  silence?: number;
  /** Milliseconds for which a request waits for a connection, and a write for a gateway that decides, if there are several addresses; 30,000. */
  patience?: number;
  /** Milliseconds before a second round over all addresses, 250; each further one waits twice as long, up to `longest`, 30,000, less a half by chance. */
  shortest?: number;
  longest?: number;
  /** Milliseconds after which a relation that was too large or found no room, and a write that has to wait (104), are tried again; 30,000. */
  again?: number;
  /** A WebSocket, where there is none (Node before 22). */
  WebSocket?: new (url: string) => any;
}

/** A client of the gateway at the address, as `ws://127.0.0.1:8080/live`, or of those of one log at several. */
export function connect<R extends object = Relations>(url: string | URL | ReadonlyArray<string | URL>, options: Options): Db<R>;
/** What JSON says, with numbers beyond 2^53 as BigInt. */
export function parse(line: string): any;
/** The JSON of a value, in which a BigInt is a number. */
export function text(value: unknown): string;
/** The order of two values of one kind: numbers by size, texts by their bytes, false before true, and null last. */
export function compare<V extends Value>(one: V | null, other: V | null): number;
