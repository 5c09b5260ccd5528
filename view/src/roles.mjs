import { Kleene } from "./kleene.mjs";

/* ======== Roles: how each predicate is drawn ======== */
export class Roles {
  predicates = new Map(); // by name, in the order of declaration: name, arity, kind, isDefined, isClosure, holders
  isWhole = false; // whether unknown arrows that a definition excludes are drawn
  isFolded = true; // whether equal cells of a long chain are drawn as one
  /** From what censuses say of predicates, from the program where it is given, and a few structures for guesses. */
  constructor(censuses, program = null, samples = []) {
    const declared = program?.predicates ?? new Map();
    for (const facts of [[...declared.values()], ...censuses.map(census => census.ordered)])
      for (const { name, arity } of facts)
        if (name !== "sm" && !this.predicates.has(name)) this.predicates.set(name, { name, arity });
    for (const role of this.predicates.values()) {
      const facts = censuses.map(census => census.facts.get(role.name)).filter(fact => fact);
      this.tell(role, facts, declared.get(role.name));
      role.holders = [...Roles.holders(declared, role.name)];
    }
    this.fields = this.of("field");
    const inverses = Roles.inverses(samples, this.fields);
    this.fields.forEach((field, i) => {
      field.isBackward = this.fields.slice(0, i).some(other => !other.isBackward && inverses(field.name, other.name));
    });
    this.closures = this.of("derived").filter(role => role.isClosure);
    this.pointers = [...this.of("pointer"), ...this.of("property")];
    this.forward = this.fields.filter(field => !field.isBackward);
    this.isDown = this.forward.length > 1;
  }
  get all() { return [...this.predicates.values()]; }
  kept = new Map(); // by kinds
  of(...kinds) {
    const key = kinds.join();
    if (!this.kept.has(key)) this.kept.set(key, this.all.filter(role => kinds.includes(role.kind)));
    return this.kept.get(key);
  }
  tell(role, facts, declared) {
    const { name, arity } = role;
    role.isDefined = declared?.isDefined ?? name.includes("[");
    role.isClosure = declared?.isClosure ?? (arity === 2 && facts.every(fact => fact.isReflexive));
    const isPointer = !role.isDefined && (declared?.isUnique ?? facts.every(fact => fact.isPointer));
    role.isDerived = role.isDefined || role.isClosure;
    role.kind = ["flag", isPointer ? "pointer" : "property", role.isDerived ? "derived" : "field"][arity];
    role.isShown = role.kind !== "derived";
  }
  /** The predicates that are true wherever one is, by their definitions. */
  static holders(predicates, name, found = new Set()) {
    for (const [other, { holds }] of predicates)
      if (holds.includes(name) && !found.has(other)) Roles.holders(predicates, other, found.add(other));
    return found;
  }
  /** Tells of two fields whether where the second surely leads from one cell to another the first mostly leads back. */
  static inverses(structures, fields) {
    const pairs = new Map(), backs = new Map(), add = (map, key) => map.set(key, (map.get(key) ?? 0) + 1);
    for (const structure of structures) {
      const at = new Map(); // by two cells: which fields may lead so
      const all = fields.flatMap(({ name }) => structure.pairs(name).map(pair => ({ ...pair, name })));
      for (const { name, u, v } of all) at.set(`${u} ${v}`, [...at.get(`${u} ${v}`) ?? [], name]);
      for (const { name, value, u, v } of all) {
        if (value !== Kleene.YES || u === v) continue;
        add(pairs, name);
        for (const other of at.get(`${v} ${u}`) ?? []) add(backs, `${other} ${name}`);
      }
    }
    return (name, other) => pairs.has(other) && (backs.get(`${name} ${other}`) ?? 0) * 2 >= pairs.get(other);
  }
  /** An unknown value that a definition excludes: where `t = n*` is false of a pair, so is `n`. */
  static excludes(structure, { name, holders }, u, v) {
    return structure.value(name, u, v) === Kleene.MAYBE
      && holders.some(holder => structure.value(holder, u, v) === Kleene.NO);
  }
}
