// What viewd.js throws, the JSON of values with numbers of 64 bits, and the order of values.

const NAMES = {1: "bad json", 2: "bad request", 3: "no session", 4: "session in use", 5: "unknown role", 6: "name taken",
  7: "unknown relation", 8: "not a table", 9: "bad row", 10: "bad query", 11: "not administrator", 12: "not owner",
  13: "missing privilege", 14: "no permissive policy", 15: "restrictive policy failed", 16: "no such row", 17: "limit",
  18: "unknown policy", 19: "unknown subscription", 20: "too many", 22: "line too long", 23: "membership loop"};
const NUL = "\u0000"; // no text of viewd's has it

/** What this client throws. */
export class ViewdError extends Error {
  name = this.constructor.name;
}

/** The gateway refused the request, and nothing was changed. */
export class Refused extends ViewdError {
  constructor(reply) {
    const more = ["on", "privilege", "policy", "check", "entry", "key", "why", "place"].filter((key) => key in reply);
    super([`${NAMES[reply.error] ?? "refused"} (${reply.error})`, ...more.map((key) => `${key} ${reply[key]}`)].join(", "));
    /** The number of the refusal in docs/PROTOCOL.md. */
    this.code = reply.error;
    /** The whole reply. */
    this.reply = reply;
  }
}

const WHY = {100: "it is decided by the owner of the log that the gateway follows", 101: "its name is another request's",
  102: "it is too old", 103: "the gateway's journal is another", 104: "it is to be sent again"};

/**
 * Nobody can tell whether the request was carried out; it was whole, or not at all. Look at the rows, and make another request if they do not
 * have it. A write is that only by a `code`: 102 and 103 are final, as what came of the write is not known any more.
 */
export class Undecided extends ViewdError {
  constructor(code = null) {
    super(code === null ? "undecided: the connection went before the reply came, so it was carried out or not"
      : `undecided: ${WHY[code] ?? "the gateway does not say why"} (${code}), so it was carried out or not`);
    /** The number in docs/PROTOCOL.md, or null if the connection went. */
    this.code = code;
  }
}

/** The request was not sent, so it was not carried out. */
export class NotSent extends ViewdError {
  constructor(why) {
    super(`not sent: ${why}`);
  }
}

/** What JSON says, with numbers beyond 2^53 as BigInt, which JSON.parse would round. */
export function parse(line) {
  if (!/\d{16}/.test(line)) return JSON.parse(line);
  // a text is passed over whole, so that digits in it stay
  const marked = line.replace(/"(?:[^"\\]|\\.)*"|-?\d{16,}/g, (found) =>
    found[0] === '"' || Number.isSafeInteger(Number(found)) ? found : `"\\u0000${found}"`);
  return JSON.parse(marked, (_, value) => typeof value === "string" && value.startsWith(NUL) ? BigInt(value.slice(1)) : value);
}

/** The JSON of a value, in which a BigInt is a number. */
export function text(value) {
  if (typeof value === "bigint") return String(value);
  if (Array.isArray(value)) return `[${value.map(text)}]`;
  if (value === null || typeof value !== "object") return JSON.stringify(value) ?? "null";
  const members = Object.entries(value).filter(([, it]) => it !== undefined);
  return `{${members.map(([key, it]) => `${JSON.stringify(key)}:${text(it)}`)}}`;
}

// A place of UTF-16 by the order of UTF-8: halves of pairs come behind all else.
const place = (unit) => unit >= 0xe000 ? unit - 0x800 : unit >= 0xd800 ? unit + 0x2000 : unit;

/** The order of two values of one kind: numbers by size, texts by their bytes, false before true, and null last. */
export function compare(one, other) {
  if (one === other) return 0;
  if (one === null || other === null) return one === null ? 1 : -1;
  if (typeof one !== "string") return one < other ? -1 : one > other ? 1 : 0;
  const end = Math.min(one.length, other.length);
  for (let at = 0; at < end; at++) {
    const [left, right] = [one.charCodeAt(at), other.charCodeAt(at)];
    if (left !== right) return place(left) - place(right);
  }
  return one.length - other.length;
}
