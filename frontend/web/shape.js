// The shape that administrators are told: roles, their members, relations, grants, row security and policies, from the requests that made it.

const PRIVILEGES = ["select", "insert", "update", "delete"];
const named = () => Object.create(null); // by names, of which one may be __proto__

export class Shape {
  roles = ["admin"];
  members = []; // pairs of a role and its direct member
  relations = named(); // the requests that created them
  grants = named(); // of a relation, by role, its privileges
  row_security = named();
  policies = []; // the requests that created them

  apply(made) {
    const {do: what, on, name, to, role} = made;
    if (what === "create_role") this.roles.push(name);
    else if (what === "grant_role") this.members.some((it) => it[0] === role && it[1] === to) || this.members.push([role, to]);
    else if (what === "revoke_role") this.members = this.members.filter((it) => it[0] !== role || it[1] !== to);
    else if (what === "create_table" || what === "create_view") {
      this.relations[name] = made;
      this.grants[name] = named();
      this.grants[name][made.owner] = PRIVILEGES;
    } else if (what === "grant") this.#hold(on, to, (it, held) => held.includes(it) || made.privileges.includes(it));
    else if (what === "revoke") this.#hold(on, to, (it, held) => held.includes(it) && !made.privileges.includes(it));
    else if (what === "row_security") this.row_security[on] = {enable: made.enable, force: made.force};
    else if (what === "create_policy") this.policies.push(made);
    else if (what === "drop_policy") this.policies = this.policies.filter((it) => it.on !== on || it.name !== name);
  }

  #hold(on, to, holds) {
    const held = this.grants[on][to] ?? [];
    this.grants[on][to] = PRIVILEGES.filter((it) => holds(it, held));
  }
}
