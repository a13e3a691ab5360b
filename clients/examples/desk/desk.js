// A support desk: the tickets that the reader may see, searched, sorted and in pages; new ones, closing and reopening, and an undo.
import {connect, NotSent, Refused, Undecided} from "../../js/viewd.js";

const SIZE = 50; // tickets of a page
const KEPT = 50; // lines of the protocol that are shown
const $ = (id) => document.getElementById(id);
const make = (tag, props = {}, ...kids) => {
  const node = Object.assign(document.createElement(tag), props);
  node.append(...kids);
  return node;
};
const chosen = {words: "", closed: false, order: "-id", page: 0};
let db, tickets, numbers;
let undoing = null; // entries that take the last change back

// ---- what is said to the reader

/** What was refused, in plain words. `deed` is what was tried, as in "You may not close it." */
function plain(why, deed) {
  if (why instanceof NotSent) return "You are not connected. Nothing was changed.";
  if (why instanceof Undecided) return "The connection went. Look whether it was done before you try again.";
  if (!(why instanceof Refused)) return why.message;
  return {
    2: "This does not fit: a text has at most 1,024 bytes.",
    13: `You may not ${deed}.`, 14: `You may not ${deed}.`, 15: `You may not ${deed}.`,
    16: "Somebody has changed it meanwhile. Look at it again.",
    17: "There is no room for more.",
  }[why.code] ?? why.message;
}

function done(words, entries = null) {
  undoing = entries;
  document.querySelector("#done [role=status]").textContent = words;
  $("undo").hidden = !entries;
  $("failed").textContent = "";
}

/** Writes entries; what takes them back is then offered. Whether it was done. */
async function write(entries, words, back, deed) {
  try {
    await db.write(entries);
    done(words, back);
    return true;
  } catch (why) {
    done("");
    $("failed").textContent = plain(why, deed);
    return false;
  }
}

const change = (row, values, words, deed) =>
  write([{on: "tickets", update: [row, {...row, ...values}]}], words, [{on: "tickets", update: [{...row, ...values}, row]}], deed);

// ---- tickets

const lines = new WeakMap(); // a row that stays is the same object, so its line stays too

function lineOf(row) {
  if (lines.has(row)) return lines.get(row);
  const {id, agent, subject, open} = row;
  const word = open ? "Close" : "Reopen";
  const button = make("button", {textContent: word, onclick: async () => {
    if (button.ariaBusy) return; // one change for two clicks
    button.ariaBusy = "true";
    await change(row, {open: !open}, `Ticket ${id} is ${open ? "closed" : "open again"}.`, `${word.toLowerCase()} ticket ${id}`);
    button.ariaBusy = null;
  }});
  button.setAttribute("aria-label", `${word} ticket ${id}`);
  const cells = [String(id), agent, subject, open ? "open" : "closed", button].map((it) => make("td", {}, it));
  for (const cell of cells) cell.setAttribute("role", "cell");
  const line = make("tr", {}, ...cells);
  line.setAttribute("role", "row");
  line.dataset.id = id;
  lines.set(row, line);
  return line;
}

/** Puts the rows of the page into the table, and the keyboard back to the same ticket, or to the one in its place. */
function draw(rows, isSame) {
  const body = $("tickets").tBodies[0], focused = document.activeElement.closest("tbody tr"), place = focused?.sectionRowIndex;
  const wanted = rows.map(lineOf), kept = new Set(wanted), there = new Set(body.rows);
  for (const line of there) kept.has(line) || line.remove();
  wanted.forEach((line, at) => {
    if (body.rows[at] !== line) body.insertBefore(line, body.rows[at] ?? null);
    line.className = isSame && !there.has(line) ? "came" : "";
  });
  if (focused && !body.contains(document.activeElement)) {
    const line = body.querySelector(`[data-id="${focused.dataset.id}"]`) ?? body.rows[Math.min(place, body.rows.length - 1)];
    (line?.querySelector("button") ?? $("choice").elements.words).focus();
  }
}

const EMPTY = {waiting: "The tickets are coming.", refused: "You may not read the tickets.", live: "There is no such ticket that you may see."};
let before = {rows: [], page: null, state: null}; // what was drawn last

function showTickets() {
  const {rows, total, state} = tickets, pages = Math.max(1, Math.ceil(total / SIZE));
  if (state === "live" && chosen.page >= pages) return choose({page: pages - 1});
  const shown = rows.slice(chosen.page * SIZE), page = JSON.stringify(chosen);
  draw(shown, page === before.page && before.state === "live");
  if (page === before.page && before.state === "live") announce(before.rows, shown);
  before = {rows: shown, page, state};
  $("tickets").setAttribute("aria-busy", state === "waiting");
  $("notice").textContent = shown.length ? "" : state === "refused" && tickets.why === "privilege" ? "You may no longer read the tickets." : EMPTY[state] ?? "";
  const [first, last, all] = [chosen.page * SIZE + 1, chosen.page * SIZE + shown.length, total].map((it) => it.toLocaleString("en"));
  $("range").textContent = total ? `${first} to ${last} of ${all}` : "none";
  $("back").disabled = chosen.page === 0;
  $("on").disabled = chosen.page >= pages - 1;
  showNew();
}

/** Has a screen reader tell what others have changed: some at once as one sentence. */
function announce(was, is) {
  const [old, now] = [was, is].map((rows) => new Set(rows));
  announce.came = (announce.came ?? 0) + is.filter((it) => !old.has(it)).length;
  announce.went = (announce.went ?? 0) + was.filter((it) => !now.has(it)).length;
  announce.timer ??= setTimeout(() => {
    const words = [[announce.came, "came"], [announce.went, "went"]].filter(([number]) => number).map(([number, word]) => `${number} ${word}`);
    if (words.length) $("news").textContent = `Tickets: ${words.join(", ")}.`;
    announce.came = announce.went = 0;
    announce.timer = null;
  }, 1000);
}

/** Another search, order or page. All of them are of the rows that are here already. */
function choose(values) {
  Object.assign(chosen, values);
  const words = chosen.words.toLowerCase().split(/\s+/).filter((it) => it);
  const where = ({id, agent, subject, open}) => (open || chosen.closed) && (!words.length
    || (text => words.every((it) => text.includes(it)))(`${id} ${agent} ${subject}`.toLowerCase()));
  const old = tickets;
  tickets = db.live("tickets", {where, order: chosen.order, limit: (chosen.page + 1) * SIZE});
  old?.close();
  tickets.subscribe(showTickets);
  for (const button of document.querySelectorAll("#tickets th button")) {
    const way = {[button.name]: "ascending", [`-${button.name}`]: "descending"}[chosen.order];
    button.closest("th").setAttribute("aria-sort", way ?? "none");
  }
  showTickets();
}

$("choice").oninput = ({currentTarget: {elements: {words, closed}}}) => choose({words: words.value, closed: closed.checked, page: 0});
$("choice").onsubmit = (event) => event.preventDefault();
$("tickets").tHead.onclick = ({target: {name}}) => name && choose({order: chosen.order === name ? `-${name}` : name, page: 0});
$("back").onclick = () => choose({page: chosen.page - 1});
$("on").onclick = () => choose({page: chosen.page + 1});
$("undo").onclick = async () => {
  const entries = undoing;
  $("undo").hidden = true;
  await write(entries, "It was taken back.", null, "take it back");
};

// ---- a new ticket

/** Who may not read tickets, or take a number, may not add one. */
function showNew() {
  $("new").hidden = !(tickets.state !== "refused" && numbers.rows.length);
}

/** The next number is taken in the same write as the ticket is added: where another was faster both are refused, and it is tried again. */
async function add(agent, subject) {
  for (let tries = 0; ; tries++) {
    const [{next}] = numbers.rows, ticket = {id: next, agent, subject, open: true};
    try {
      await db.write([{on: "ticket_numbers", update: [{next}, {next: BigInt(next) + 1n}]}, {on: "tickets", insert: ticket}]);
      return done(`Ticket ${next} is there.`, [{on: "tickets", delete: ticket}]);
    } catch (why) {
      if (why.code !== 16 || tries === 20) throw why;
    }
  }
}

$("new").onsubmit = async (event) => {
  event.preventDefault();
  const form = event.target, {subject, agent} = form.elements;
  if (form.ariaBusy) return; // one ticket for two Enters
  form.ariaBusy = "true";
  for (const field of [subject, agent]) tell(field, "");
  try {
    await add(agent.value.trim(), subject.value.trim());
    subject.value = "";
  } catch (why) {
    done("");
    const isAgent = [14, 15].includes(why.code);
    tell(isAgent ? agent : subject, plain(why, isAgent ? `add a ticket for ${agent.value}` : "add tickets"));
  }
  form.ariaBusy = null;
};

/** Words beside a field, to which the keyboard goes. */
function tell(field, words) {
  $(`${field.name}-why`).textContent = words;
  field.setAttribute("aria-invalid", Boolean(words));
  if (words) field.focus();
}

// ---- open tickets by agent

function showWorkload({rows, state}) {
  $("workload").hidden = state === "refused";
  const most = Math.max(1, ...rows.map(({waiting}) => Number(waiting)));
  $("workload").querySelector("tbody").replaceChildren(...rows.map(({agent, waiting}) => {
    const bar = make("b");
    bar.style.width = `${Number(waiting) / most * 60}%`;
    return make("tr", {}, make("th", {scope: "row", textContent: agent}), make("td", {}, bar, String(waiting)));
  }));
  $("agents").replaceChildren(...rows.map(({agent}) => make("option", {value: agent})));
}

// ---- lines of the protocol, and the connection

function log(sign, data) {
  if (!$("lines").open) return;
  const list = $("lines").querySelector("ol");
  for (const line of data.split("\n")) line && list.prepend(make("li", {textContent: `${sign} ${line.slice(0, 400)}`}));
  while (list.children.length > KEPT) list.lastChild.remove();
}

class Watched extends WebSocket {
  #isIn = false;

  constructor(...words) {
    super(...words);
    this.addEventListener("message", ({data}) => log("<", data));
  }

  send(data) {
    if (this.#isIn) log(">", data); // the first one is the token
    this.#isIn = true;
    super.send(data);
  }
}

const STATES = {connecting: "connecting", live: "live", stale: "Not connected. What you see may be old; trying again."};

function showState(state, why) {
  $("state").textContent = STATES[state] ?? "";
  if (state === "live") {
    $("who").hidden = false;
    $("who").querySelector("b").textContent = db.role;
    document.title = `Support desk: ${db.role}`;
    $("new").elements.agent.value ||= db.role; // the reader's own name
  }
  if (state === "closed") leave(why === "ended" ? "" : "This token opens no role.");
}

function enter(token) {
  sessionStorage.token = token;
  for (const [id, isHidden] of [["door", true], ["desk", false], ["leave", false]]) $(id).hidden = isHidden;
  db = connect("/live", {token, WebSocket: Watched});
  db.onState(showState);
  showState(db.state);
  numbers = db.live("ticket_numbers");
  numbers.subscribe(showNew);
  choose({});
  db.live("workload", {order: ["-waiting", "agent"]}).subscribe(showWorkload);
}

function leave(words) {
  delete sessionStorage.token;
  $("door").hidden = false;
  for (const id of ["desk", "leave", "who"]) $(id).hidden = true;
  $("door-why").textContent = words;
  $("door").elements.token.setAttribute("aria-invalid", Boolean(words));
  $("door").elements.token.focus();
}

$("door").onsubmit = (event) => {
  event.preventDefault();
  const {token} = event.target.elements;
  enter(token.value.trim());
  token.value = "";
};
$("leave").onclick = () => {
  db.end();
  location.reload();
};

if (sessionStorage.token) enter(sessionStorage.token);
else leave("");
