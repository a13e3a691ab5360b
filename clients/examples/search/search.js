// A page that searches as one types, and shows results as they change: each answer has a position, and the next search waits for more.
const [form, status, list] = ["form", "[role=status]", "ol"].map((it) => document.querySelector(it));
const STATES = {live: "", stale: "; not connected, so they may be old", connecting: "; not connected"};
const PAUSE = 1000; // milliseconds behind a search that failed

// Pieces have a mark before and behind each word that was found.
function marked(piece) {
  return piece.split(/(\u0002[^\u0003]*\u0003)/).map((it) =>
    it[0] === "\u0002" ? Object.assign(document.createElement("mark"), {textContent: it.slice(1, -1)}) : it);
}

function line({row, piece}) {
  const item = document.createElement("li"), head = document.createElement("b");
  const whole = piece.replace(/[\u0002\u0003]/g, "");
  head.textContent = Object.values(row).filter((it) => it.length <= 80 && it !== whole).join(" · ");
  item.append(head, ...marked(piece));
  return item;
}

function show({found, total, state, role}) {
  list.replaceChildren(...found.map(line));
  const [what, more] = [total === 1 ? "document" : "documents", total > found.length ? `; the first ${found.length}` : ""];
  status.textContent = `${total} ${what} that ${role ?? "the role"} may see${more}${STATES[state] ?? ""}`;
  document.body.className = state;
}

let running = null; // what ends the search that runs, where another one begins

async function search() {
  running?.abort();
  const {signal} = running = new AbortController();
  for (let behind = ""; !signal.aborted;) {
    try {
      const asked = new URLSearchParams({words: form.elements.words.value, behind});
      const answer = await (await fetch(`search?${asked}`, {signal})).json();
      if (signal.aborted) return;
      behind = answer.position;
      show(answer);
    } catch (why) {
      if (signal.aborted) return;
      status.textContent = "The search does not answer; trying again.";
      await new Promise((later) => setTimeout(later, PAUSE));
      behind = "";
    }
  }
}

form.oninput = search;
form.onsubmit = (event) => event.preventDefault();
search();
