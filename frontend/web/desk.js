// The support desk: tickets that the reader may see, a chart of a grouped view, and for the administrator the rights.
import {Viewd, text} from "./viewd.js";

const $ = (id) => document.getElementById(id);
const make = (tag, props = {}, ...kids) => {
  const node = Object.assign(document.createElement(tag), props);
  node.append(...kids);
  return node;
};
const [ID, AGENT, SUBJECT, OPEN] = [0, 1, 2, 3]; // columns of tickets
const PRIVILEGES = ["select", "insert", "update", "delete"];

let db;

function toast(words, bad = false) {
  $("toast").textContent = words;
  $("toast").className = bad ? "on bad" : "on";
  clearTimeout(toast.timer);
  toast.timer = setTimeout(() => $("toast").className = "", 5000);
}

async function ask(body, done) {
  try {
    await db.request(body);
    if (done) toast(done);
    return true;
  } catch (why) {
    toast(why.message, true);
    return false;
  }
}
const write = (entry) => ask({do: "write", entries: [{on: "tickets", ...entry}]});

// What stands where a relation has no rows: nothing is there, nothing may be seen, or no more.
function showEmpty(node, live, words) {
  const why = live.state === "ended" ? (live.why === "limit" ? "Too much to show." : "You may no longer read this: a right was taken back.")
    : live.state === "refused" ? (live.why.error === 13 ? `You may not read ${live.why.on}.` : `Refused: ${live.why.error}.`) : null;
  node.hidden = live.rows.size > 0 || live.state === "waiting";
  node.textContent = why ?? words;
  node.classList.toggle("bad", why !== null);
}

// Tickets: one row of the page for each row of the relation, kept by its text.
const shown = new Map();

function ticketRow([id, agent, subject, open], copies) {
  const button = make("button", {textContent: open ? "Close" : "Reopen", onclick: () =>
    write({update: [[id, agent, subject, open], [id, agent, subject, !open]]})});
  button.setAttribute("aria-label", `${button.textContent} ticket ${id}`);
  return make("tr", {},
    make("td", {className: "number", textContent: id, title: id}), make("td", {className: "words", textContent: agent}),
    make("td", {className: "words", textContent: copies > 1 ? `${subject} (×${copies})` : subject}),
    make("td", {}, make("span", {className: open ? "pill open" : "pill", textContent: open ? "open" : "closed"})),
    make("td", {}, button));
}

function dropGone(live, changes, numbers) {
  for (const [key, {tr, row}] of shown) {
    if (live.rows.has(key)) continue;
    shown.delete(key);
    if (!changes || numbers.has(row[ID])) tr.remove(); // another row of its number takes its place
    else {
      tr.className = "gone";
      tr.querySelector("button").disabled = true;
      tr.addEventListener("animationend", () => tr.remove());
    }
  }
}

function order(body) {
  const rising = (a, b) => a.row[ID] < b.row[ID] ? -1 : a.row[ID] > b.row[ID] ? 1 : 0;
  let at = body.firstElementChild;
  for (const {tr} of [...shown.values()].sort(rising)) {
    while (at?.classList.contains("gone")) at = at.nextElementSibling;
    if (tr === at) at = at.nextElementSibling;
    else body.insertBefore(tr, at);
  }
}

function showTickets(live, changes) {
  const body = $("tickets").tBodies[0];
  const focused = [...shown.values()].find(({tr}) => tr.contains(document.activeElement))?.row[ID];
  for (const tr of body.querySelectorAll(".gone")) tr.remove();
  dropGone(live, changes, new Set([...live.rows.values()].map(({row}) => row[ID])));
  for (const [key, {row, copies}] of live.rows) {
    const old = shown.get(key);
    if (old?.copies === copies) continue;
    old?.tr.remove();
    const tr = ticketRow(row, copies);
    if (changes) tr.className = "came";
    shown.set(key, {tr, row, copies});
  }
  order(body);
  if (focused !== undefined) [...shown.values()].find(({row}) => row[ID] === focused)?.tr.querySelector("button").focus();
  $("count").textContent = live.state === "live" ? `${live.rows.size} that you may see` : "";
  showEmpty($("none"), live, "No ticket that you may see.");
}

// The chart: a bar for each row of the grouped view.
const bars = new Map();

function bar(agent) {
  const part = (tag, attributes) => {
    const node = document.createElementNS("http://www.w3.org/2000/svg", tag);
    for (const [key, value] of Object.entries(attributes)) node.setAttribute(key, value);
    return node;
  };
  const made = {g: part("g", {}), name: part("text", {y: 20, "text-anchor": "end"}), rect: part("rect", {y: 4, height: 22, rx: 3}), n: part("text", {y: 20, class: "n"})};
  made.name.textContent = agent;
  made.g.append(made.name, made.rect, made.n);
  $("chart").append(made.g);
  return made;
}

function showChart(live) {
  const rows = [...live.rows.values()].map(({row: [hours, agent, waiting]}) => ({hours, agent, waiting}))
    .sort((a, b) => Number(b.waiting) - Number(a.waiting) || (a.agent < b.agent ? -1 : 1));
  const top = Math.max(1, ...rows.map(({waiting}) => Number(waiting)));
  const step = 32, left = 60, wide = Math.max(20, $("chart").clientWidth - left - 40);
  const agents = new Set(rows.map(({agent}) => agent));
  for (const [agent, {g}] of bars) if (!agents.has(agent)) g.remove(), bars.delete(agent);
  $("chart").setAttribute("height", rows.length * step);
  rows.forEach(({hours, agent, waiting}, place) => {
    if (!bars.has(agent)) bars.set(agent, bar(agent));
    const {g, name, rect, n} = bars.get(agent), width = Number(waiting) / top * wide;
    g.setAttribute("transform", `translate(0 ${place * step})`);
    g.setAttribute("class", hours === "night" ? "night" : "day");
    name.setAttribute("x", left - 8);
    rect.setAttribute("x", left);
    rect.style.width = `${width}px`;
    n.setAttribute("x", left + width + 8);
    n.textContent = waiting;
  });
  $("chart-words").textContent = rows.map(({agent, waiting}) => `${agent}: ${waiting}`).join(", ");
  showEmpty($("nochart"), live, "Nobody waits.");
}

// The administrator's panel.
function options(select, names, first) {
  const kept = select.value || first;
  select.replaceChildren(...names.map((name) => make("option", {textContent: name})));
  if (names.includes(kept)) select.value = kept;
}

// Puts new rows into a table, and the keyboard back where it was: by the name of the control.
function fill(id, rows) {
  const body = $(id).tBodies[0], focused = body.contains(document.activeElement) ? document.activeElement.name : null;
  body.replaceChildren(...rows);
  if (focused) body.querySelector(`[name="${focused}"]`)?.focus();
}

function grantRow(on, owner, held) {
  const who = Object.entries(held).filter(([, privileges]) => privileges.length).map(([role, privileges]) =>
    make("div", {}, make("b", {textContent: role}), role === owner && privileges.length === 4 ? " owns it" : ` ${privileges.join(", ")}`));
  return make("tr", {}, make("td", {textContent: on}), make("td", {className: "words"}, ...who));
}

function securityRow(on, {enable, force}) {
  const box = (name, checked, words, change) => {
    const input = make("input", {type: "checkbox", name: `${on}_${name}`, checked, onchange: async () => {
      if (!await change(input.checked)) input.checked = checked;
    }});
    input.setAttribute("aria-label", `${words} ${on}`);
    return make("td", {}, input);
  };
  const set = (enable, force) => ask({do: "row_security", on, enable, force});
  return make("tr", {}, make("td", {textContent: on}),
    box("enable", enable, "Row security on", (value) => set(value, force)), box("force", force, "Row security also for the owner of", (value) => set(enable, value)));
}

function policyRow({on, name, using, check, restrictive, command = "all", to = ["public"]}) {
  const drop = make("button", {textContent: "Drop", name: `drop_${name}`, onclick: () => ask({do: "drop_policy", on, name})});
  drop.setAttribute("aria-label", `Drop policy ${name} of ${on}`);
  return make("tr", {}, make("td", {textContent: `${on}.${name}`}),
    make("td", {className: "words"}, make("code", {textContent: using ?? check}), ` ${restrictive ? "restrictive, " : ""}${command}, ${to.join(", ")}`),
    make("td", {}, drop));
}

function memberRow([role, to]) {
  const end = make("button", {textContent: "End", name: `end_${to}_of_${role}`, onclick: () => ask({do: "revoke_role", role, to})});
  end.setAttribute("aria-label", `End that ${to} is a member of ${role}`);
  return make("tr", {}, make("td", {className: "words"}, make("b", {textContent: to}), ` is a member of ${role}`), make("td", {}, end));
}

function showRights({roles, members, relations, grants, row_security, policies}) {
  const names = Object.keys(relations), tables = names.filter((name) => relations[name].columns);
  const people = roles.filter((role) => role !== "admin");
  options($("rights").elements.on, names, "tickets");
  options($("rights").elements.to, [...people, "public"], "noah");
  options($("member").elements.to, roles, "olga");
  options($("member").elements.role, people, "mia");
  options($("policy").elements.on, tables, "tickets");
  options($("policy").elements.to, ["public", ...people], "mia");
  fill("grants", names.map((on) => grantRow(on, relations[on].owner, grants[on])));
  fill("members", members.map(memberRow));
  fill("security", tables.map((on) => securityRow(on, row_security[on] ?? {enable: false, force: false})));
  fill("policies", policies.map(policyRow));
}

$("rights").onsubmit = (event) => {
  event.preventDefault();
  const form = event.target.elements, what = event.submitter?.value === "revoke" ? "revoke" : "grant";
  const privileges = PRIVILEGES.filter((name) => form[name].checked);
  ask({do: what, on: form.on.value, privileges, to: form.to.value}, `${what}: ${privileges.join(", ")} on ${form.on.value}, ${form.to.value}.`);
};

$("member").onsubmit = (event) => {
  event.preventDefault();
  const {role, to} = event.target.elements;
  ask({do: "grant_role", role: role.value, to: to.value}, `${to.value} is a member of ${role.value}.`);
};

$("policy").onsubmit = (event) => {
  event.preventDefault();
  const form = event.target.elements;
  const body = {do: "create_policy", on: form.on.value, name: form.name.value, command: form.command.value, to: [form.to.value], restrictive: form.restrictive.checked};
  for (const key of ["using", "check"]) if (form[key].value) body[key] = form[key].value;
  ask(body, `Policy ${body.name} is in effect.`);
};

$("new").onsubmit = async (event) => {
  event.preventDefault();
  const form = event.target.elements;
  const id = 1000 + Math.floor(Math.random() * 99_000); // viewd has no keys: a number that hidden rows lack can only be guessed
  if (await write({insert: [id, form.agent.value, form.subject.value, true]})) form.subject.value = "";
};

let count = 0;
function showLines(lines) {
  const told = lines.filter((line) => !line.startsWith('{"settled"') && !line.includes('"made":{') && !line.startsWith('{"alive"'));
  $("lines").textContent = `${count += told.length} lines`;
  for (const line of told.slice(-6)) {
    const words = line.slice(0, 400);
    $("log").prepend(make("div", {textContent: words, title: words, className: line.includes('"ended":') ? "ended" : ""}));
  }
  while ($("log").children.length > 7) $("log").lastChild.remove();
}

const STATES = {live: "live", connecting: "connecting", waiting: "not connected, trying again"};
function showState(state, token, more) {
  $("state").className = `state ${state}`;
  $("state").textContent = state === "waiting" && more ? `${more} Trying again.` : STATES[state] ?? state;
  document.querySelector("main").classList.toggle("stale", state !== "live");
  if (state === "live") {
    sessionStorage.token = token;
    $("role").textContent = db.role;
    document.title = `Support desk: ${db.role}`;
    $("admin").hidden = db.role !== "admin";
  }
  if (state === "refused") {
    delete sessionStorage.token;
    showDoor(more);
  }
}

function showDoor(words = "") {
  $("desk").hidden = true;
  $("door").hidden = false;
  $("turned").hidden = !words;
  $("turned").textContent = words;
  $("door").querySelector("input").focus();
}

function enter(token) {
  $("door").hidden = true;
  $("desk").hidden = false;
  const url = `${location.protocol === "https:" ? "wss" : "ws"}://${location.host}${location.pathname.replace(/[^/]*$/, "")}live`;
  db = new Viewd(url, token, {onState: (state, more) => showState(state, token, more), onShape: showRights, onLines: showLines});
  db.live("tickets", showTickets);
  const chart = db.live("workload", showChart);
  window.onresize = () => showChart(chart);
  db.live("agents", (live) => options($("new").elements.agent, [...live.rows.values()].map(({row}) => row[0]).sort()));
  window.viewd = {db, text}; // for the console
}

$("door").querySelector("form").onsubmit = (event) => {
  event.preventDefault();
  enter(event.target.elements.token.value.trim());
};
$("out").onclick = () => {
  delete sessionStorage.token;
  location.reload();
};

// A link may carry the token behind #. It is taken off the address; what the browser has noted of the link may stay in its history.
const linked = () => new URLSearchParams(location.hash.slice(1)).get("token");
if (linked()) {
  sessionStorage.token = linked();
  history.replaceState(null, "", location.pathname);
}
// a further link in the same tab
addEventListener("hashchange", () => linked() && location.reload());
if (sessionStorage.token) enter(sessionStorage.token);
else showDoor();
