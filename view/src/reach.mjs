import { Kleene } from "./kleene.mjs";

/* ======== What is reached: by the closures of a report (`t[n]`), and by what it says of each variable (`r[n,x]`) ======== */
export class Reach {
  constructor(roles) {
    const inner = name => /\[(.*)\]$/.exec(name)?.[1] ?? name;
    this.closures = roles.of("derived").filter(role => role.arity === 2 && role.isDefined && role.isClosure).map(({ name }) => ({ name, key: inner(name) }));
    this.from = new Map(); // by variable: the predicates that say what it reaches
    for (const { name, arity } of roles.all) {
      const [, key = "", pointer] = arity === 1 && /^r\[(?:(.*),)?(\w+)\]$/.exec(name) || [];
      if (pointer) this.from.set(pointer, [...this.from.get(pointer) ?? [], { name, key }]);
    }
  }
  /** Whether the report says what cells reach, or at least what one of these variables does. */
  knows(pointers) { return this.closures.length > 0 || pointers.some(pointer => this.from.has(pointer)); }
  /** Whether the cell u, to which the variables point, reaches the cell v, along any field; a known value of two counts. */
  value(structure, u, v, pointers) {
    const said = pointers.flatMap(pointer => this.from.get(pointer) ?? []).map(({ name, key }) => ({ key, value: structure.value(name, v) }));
    const values = this.closures.map(({ name, key }) => {
      const value = structure.value(name, u, v), own = said.find(one => one.key === key && one.value !== Kleene.MAYBE);
      return value === Kleene.MAYBE && own ? own.value : value;
    });
    const keys = new Set(this.closures.map(({ key }) => key)), others = said.filter(({ key }) => !keys.has(key)).map(({ value }) => value);
    return [...values, ...others].reduce((a, b) => Kleene.or(a, b), Kleene.NO);
  }
}

/** What each variable of a structure reaches, in sentences. */
export const reachWords = (structure, roles) => {
  const reach = new Reach(roles), names = roles.of("pointer").map(({ name }) => name);
  return names.flatMap(name => {
    const at = structure.cells.filter(u => structure.value(name, u) === Kleene.YES);
    if (at.length !== 1 || !reach.knows([name])) return [];
    const value = v => reach.value(structure, at[0], v, [name]), told = v => names.find(other => structure.value(other, v) === Kleene.YES) ?? structure.individuals[v];
    const of = wanted => [...new Set(structure.cells.filter(v => v !== at[0] && value(v) === wanted).map(told))].join(", ");
    const parts = [["reaches", Kleene.YES], ["may reach", Kleene.MAYBE], ["doesn't reach", Kleene.NO]].flatMap(([words, wanted]) => of(wanted) ? [`${words} ${of(wanted)}`] : []);
    return parts.length ? [`${name} ${parts.join("; ")}.`] : [];
  }).join(" ");
};
