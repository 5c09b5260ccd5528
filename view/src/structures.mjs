import { Kleene } from "./kleene.mjs";
import { Kind, Cursor } from "./tokens.mjs";

/* ======== Structures: individuals, and a table of values for each predicate ======== */
export class Structure {
  individuals = [];
  tables = new Map(); // by predicate: its arity and values
  get size() { return this.individuals.length; }
  /** The numbers of its individuals. */
  get cells() { return [...this.individuals.keys()]; }
  set(predicate, arity, u, v, value) {
    if (!this.tables.has(predicate))
      this.tables.set(predicate, { arity, values: new Uint8Array(this.size ** arity) });
    this.tables.get(predicate).values[arity === 2 ? u * this.size + v : u] = value;
  }
  value(predicate, u = 0, v = 0) {
    const table = this.tables.get(predicate);
    return table ? table.values[table.arity === 2 ? u * this.size + v : u] : Kleene.NO;
  }
  /** The pairs of which a predicate isn't 0, with its values. */
  pairs(predicate) {
    const pairs = [], { size } = this;
    this.tables.get(predicate)?.values.forEach((value, at) => {
      if (value) pairs.push({ value, u: Math.floor(at / size), v: at % size });
    });
    return pairs;
  }
  /** The name of a predicate that is true, with `?` where it may be, else "". */
  told(name, u = 0, v = 0) { return ["", name, `${name}?`][this.value(name, u, v)]; }
  isSummary(u) { return this.value("sm", u) === Kleene.MAYBE; }
  /** The canonical text, but for the names of individuals and the order of predicates, which stay. */
  write() {
    const lines = [`%n = {${this.individuals.join(", ")}}`, "%p = {"];
    const tables = [...this.tables].sort(([a], [b]) => (a === "sm") - (b === "sm"));
    for (const [predicate, { arity, values }] of tables) {
      const items = [];
      values.forEach((value, at) => {
        if (value) items.push(this.item(arity, at) + (value === Kleene.MAYBE && arity ? ":1/2" : ""));
      });
      if (items.length)
        lines.push(`  ${predicate} = ${arity ? `{${items.join(", ")}}` : Kleene.text(values[0])}`);
    }
    return lines.concat("}").join("\n") + "\n";
  }
  item(arity, at) {
    const places = arity === 2 ? [Math.floor(at / this.size), at % this.size] : [at];
    return places.map(u => this.individuals[u]).join("->");
  }
}

/** What all structures of a text say of the predicates in it. */
export class Census {
  facts = new Map(); // by predicate: its arity, what may stand behind it, whether it may be a pointer, and reflexive
  order = null; // of the predicates, as long as nothing new is noted
  fact(name, arity) {
    if (!this.facts.has(name)) {
      this.facts.set(name, { name, arity, behind: new Set(), isPointer: true, isReflexive: true });
      this.order = null;
    }
    return this.facts.get(name);
  }
  /** Notes that predicates are told in this order. */
  follow(facts) {
    facts.slice(1).forEach((next, i) => {
      if (next === facts[i] || facts[i].behind.has(next)) return;
      facts[i].behind.add(next);
      this.order = null;
    });
  }
  /** Notes the entries of one structure: each has a name, an arity, and the items that aren't 0; answers their facts. */
  note(entries, size, summaries) {
    return entries.map(entry => {
      const fact = this.fact(entry.name, entry.arity);
      if (entry.arity === 1 && fact.isPointer) fact.isPointer = Census.isPointer(entry, summaries);
      if (entry.arity === 2 && fact.isReflexive) fact.isReflexive = Census.isReflexive(entry, size, summaries);
      return fact;
    });
  }
  /** Notes a structure whose predicates stand in no order. */
  noteStructure(structure) {
    const entries = [...structure.tables].filter(([name]) => name !== "sm").map(([name, { arity, values }]) => {
      const items = arity === 2 ? structure.pairs(name) : structure.cells.map(u => ({ u, value: values[u] }));
      return { name, arity, items: items.filter(({ value }) => value) };
    });
    this.note(entries, structure.size, new Set(structure.cells.filter(u => structure.isSummary(u))));
  }
  static isPointer({ items }, summaries) {
    return items.length === 0
      || items.length === 1 && !(items[0].value === Kleene.YES && summaries.has(items[0].u));
  }
  static isReflexive({ items }, size, summaries) {
    const loops = items.filter(({ u, v }) => u === v);
    return loops.length === size && loops.every(({ u, value }) => value === Kleene.YES || summaries.has(u));
  }
  /** The predicates in an order that each structure keeps: that of declaration, as far as it can be seen. */
  get ordered() { return this.order ??= this.sorted(); }
  sorted() {
    const before = new Map(), facts = [...this.facts.values()];
    for (const { behind } of facts) for (const next of behind) before.set(next, (before.get(next) ?? 0) + 1);
    const order = facts.filter(fact => !before.has(fact));
    for (const fact of order) { // grows
      for (const next of fact.behind) {
        before.set(next, before.get(next) - 1);
        if (before.get(next) === 0) order.push(next);
      }
    }
    const isPlaced = new Set(order);
    return [...order, ...facts.filter(fact => !isPlaced.has(fact))];
  }
}

/** Reads the structures of one text; all is tested, also where nothing is kept of it. */
export class StructureReader {
  constructor(bytes) {
    this.cursor = new Cursor(bytes);
    this.arities = new Map([["sm", 1]]); // of each predicate, as soon as an entry tells it
    this.census = new Census();
  }
  /** Reads the structure at hand, notes it in the census, and answers where it begins. */
  pass() {
    const start = this.cursor.start;
    this.entries = [];
    this.summaries = new Set();
    this.read(null);
    this.census.follow(this.census.note(this.entries, this.places.size, this.summaries));
    this.entries = null;
    return start;
  }
  /** Reads the structure at hand into `kept`, or past it. */
  read(kept) {
    const cursor = this.cursor;
    this.places = new Map(); // of the individuals
    this.directive("%n");
    cursor.list(() => cursor.kind === Kind.WORD, () => this.individual(kept));
    cursor.take("}", "`,` or `}`");
    this.directive("%p");
    while (cursor.kind === Kind.WORD) this.entry(kept);
    cursor.take("}", "a predicate or `}`");
  }
  directive(text) {
    if (!this.cursor.isDirective(text[1])) this.cursor.fault(`\`${text}\``);
    this.cursor.advance();
    this.cursor.take("=");
    this.cursor.take("{");
  }
  individual(kept) {
    const cursor = this.cursor, word = cursor.text();
    if (cursor.kind !== Kind.WORD) cursor.fault("an individual");
    if (this.places.has(word)) cursor.fault("an individual that isn't listed yet");
    if (this.places.size === 256) cursor.fault("`}` behind 256 individuals");
    this.places.set(word, this.places.size);
    if (kept) kept.individuals.push(word);
    cursor.advance();
  }
  entry(kept) {
    const cursor = this.cursor, start = cursor.start, name = this.name();
    this.items = [];
    cursor.take("=");
    if (cursor.kind !== "{") {
      this.tellArity(name, 0, start);
      const value = this.value("`{` or a value `0`, `1` or `1/2`");
      if (kept) kept.set(name, 0, 0, 0, value);
    } else {
      cursor.advance();
      cursor.list(() => cursor.kind === Kind.WORD, () => this.item(name, kept));
      cursor.take("}", "`,` or `}`");
    }
    if (this.entries && name !== "sm" && this.arities.has(name))
      this.entries.push({ name, arity: this.arities.get(name), items: this.items });
  }
  name() {
    const cursor = this.cursor, head = cursor.takeIdentifier("the name of a predicate"), inner = [];
    if (cursor.kind !== "[") return head;
    cursor.advance();
    cursor.list(() => true, () => inner.push(cursor.takeIdentifier("a name in brackets")));
    cursor.take("]", "`,` or `]`");
    return `${head}[${inner.join(",")}]`;
  }
  item(name, kept) {
    const cursor = this.cursor, start = cursor.start, u = this.place();
    let v = 0, arity = 1, value = Kleene.YES;
    if (cursor.kind === "->") {
      cursor.advance();
      v = this.place();
      arity = 2;
    }
    this.tellArity(name, arity, start);
    if (cursor.kind === ":") {
      cursor.advance();
      value = this.value("a value `0`, `1` or `1/2`");
    }
    if (value === Kleene.YES && name === "sm") cursor.fault("`:1/2` or `:0` for `sm`");
    if (kept) kept.set(name, arity, u, v, value);
    else if (this.entries && value) name === "sm" ? this.summaries.add(u) : this.items.push({ u, v, value });
  }
  place() {
    const cursor = this.cursor, place = this.places.get(cursor.text());
    if (cursor.kind !== Kind.WORD) cursor.fault("an individual");
    if (place === undefined) cursor.fault("an individual that `%n` lists");
    cursor.advance();
    return place;
  }
  tellArity(name, arity, at) {
    const known = this.arities.get(name);
    if (known === arity) return;
    if (known !== undefined) {
      const form = ["a value", "individuals", "pairs of individuals"][known];
      this.cursor.fault(`${form} for \`${name}\`${name === "sm" ? "" : ", as before"}`, at);
    }
    this.arities.set(name, arity);
  }
  value(expected) {
    const cursor = this.cursor, value = ["0", "1", "1/2"].indexOf(cursor.text());
    if (value < 0) cursor.fault(expected);
    cursor.advance();
    return value;
  }
}
