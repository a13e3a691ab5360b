// The types, used: open tickets by number, one that is added and closed again. `tsc --noEmit --strict` is run over it.
import {connect, Refused, Undecided} from "../viewd.js";

interface Tickets {
  tickets: {id: number | bigint; agent: string; subject: string; open: boolean};
  workload: {hours: string; agent: string; waiting: number | bigint};
  visits: {id: number | bigint; until: string | null};
}

const db = connect<Tickets>("ws://127.0.0.1:8080/live", {token: async () => "mia-demo", nulls: true});
const open = db.live("tickets", {where: {open: true}, order: ["agent", "-id"], limit: 20});
open.subscribe(({rows, total, state}) => {
  for (const {id, subject} of rows) console.log(`${id} ${subject.toUpperCase()}`);
  console.log(`${rows.length} of ${total}, ${state}`);
});

export async function first(): Promise<void> {
  try {
    const ticket = {id: 7n, agent: "mia", subject: "Hello", open: true};
    await db.insert("tickets", ticket);
    await db.update("tickets", ticket, {open: false});
    await db.insert("visits", {id: 7, until: null});
    await db.write([{on: "tickets", delete: {...ticket, open: false}, copies: 1}, {on: "tickets", insert: [8, "mia", "Again", true]}]);
  } catch (why) {
    if (why instanceof Refused) console.log(why.code, why.message);
    else if (why instanceof Undecided) console.log("look at the rows before you try again");
    else throw why;
  }
  // @ts-expect-error there is no such relation
  db.live("ticket");
  // @ts-expect-error there is no such column
  db.live("tickets", {order: "number"});
  // @ts-expect-error a flag is no text
  await db.update("tickets", open.rows[0]!, {open: "yes"});
  // @ts-expect-error this column is never null
  await db.update("visits", {id: 7, until: null}, {id: null});
  // @ts-expect-error a column is missing
  await db.insert("tickets", {id: 9, agent: "mia"});
  open.close();
  db.end();
}
