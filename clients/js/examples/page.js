import {connect} from "../viewd.js";

const db = connect("/live", {token: prompt("Token")});
const tickets = db.live("tickets", {where: {open: true}, order: "-id", limit: 20});
const cell = (value) => Object.assign(document.createElement("td"), {textContent: value});
const line = ({id, subject}) => {
  const row = document.createElement("tr");
  row.append(cell(id), cell(subject));
  return row;
};
tickets.subscribe(() => document.querySelector("tbody").replaceChildren(...tickets.rows.map(line)));
db.onState((state) => document.querySelector("[role=status]").textContent = state);
