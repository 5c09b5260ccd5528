import { Kleene } from "./kleene.mjs";
import { Fault } from "./tokens.mjs";
import { Structure, Census } from "./structures.mjs";

/* ======== Lines: a structure in one line, as tvla-explain writes it: `  (x&t?)-n->(#1)  (#1)-n?->((t))  ((t))  b?` ======== */
const PREDICATE = /[A-Za-z_]\w*(?:\[[\w,]*\])?/y;

/** The first predicate that is true of each individual and of no other, where there is one. */
const tellingNames = (structure, predicates) => {
  const names = new Array(structure.size);
  for (const { name } of predicates.filter(({ arity }) => arity === 1)) {
    const cells = structure.cells.filter(u => structure.value(name, u) === Kleene.YES);
    if (cells.length === 1) names[cells[0]] ??= name;
  }
  return names;
};
const inBrackets = (structure, u, text) => structure.isSummary(u) ? `((${text}))` : `(${text})`;

export const Line = {
  /** The line of a structure, without the two blanks in front; `predicates` have a name and an arity. */
  write(structure, predicates) {
    const of = arity => predicates.filter(predicate => predicate.arity === arity).map(({ name }) => name);
    const telling = tellingNames(structure, predicates), names = { unary: of(1), binary: of(2), flags: of(0) };
    const targets = structure.cells.map(u => inBrackets(structure, u, telling[u] ?? `#${u}`));
    const parts = structure.cells.map(u => {
      const own = names.unary.map(name => structure.told(name, u)).filter(text => text);
      const arrows = names.binary.flatMap(name => structure.cells.flatMap(v =>
        structure.value(name, u, v) ? `-${structure.told(name, u, v)}->${targets[v]}` : []));
      return inBrackets(structure, u, [...telling[u] ? [] : [`#${u}`], ...own].join("&")) + arrows.join("&");
    });
    return [...parts, ...names.flags.map(name => structure.told(name)).filter(text => text)].join("  ");
  },
};

/** Goes along one line of a text; what isn't in the grammar is a `Fault`. The census notes what is met. */
export class LineReader {
  constructor(source, at, end, census = new Census()) { Object.assign(this, { source, at, end, census }); }
  get isAtEnd() { return this.at >= this.end; }
  fault(expected, at = this.at) {
    const found = this.source.slice(at, Math.min(this.end, at + 40));
    throw new Fault(at, expected, found ? `\`${found}\`` : "the end of the line");
  }
  sees(text) { return this.source.startsWith(text, this.at) && this.at + text.length <= this.end; }
  skips(text) {
    const isHere = this.sees(text);
    if (isHere) this.at += text.length;
    return isHere;
  }
  take(text) { if (!this.skips(text)) this.fault(`\`${text}\``); }
  /** Takes what the pattern, which is sticky, finds here. */
  match(pattern, expected) {
    pattern.lastIndex = this.at;
    const found = pattern.exec(this.source);
    if (!found || pattern.lastIndex > this.end) this.fault(expected);
    this.at = pattern.lastIndex;
    return found;
  }
  number(expected) { return Number(this.match(/(?:0|[1-9]\d{0,9})(?!\w)/y, expected)[0]); }
  word(expected) { return this.match(/\w+/y, expected)[0]; }
  /** A predicate of this arity with its value. */
  valued(arity) {
    const start = this.at, name = this.match(PREDICATE, "the name of a predicate")[0];
    const fact = this.census.fact(name, arity);
    if (fact.arity !== arity) this.fault(`a predicate of ${arity === 1 ? "one argument" : `${arity} arguments`}`, start);
    return { name, fact, value: this.skips("?") ? Kleene.MAYBE : Kleene.YES };
  }
  /** The structure that stands from here to the end of the line, each part behind two blanks. */
  structure() {
    const begin = this.at, individuals = [], flags = [];
    while (!this.isAtEnd) {
      this.take("  ");
      if (!flags.length && this.sees("(")) individuals.push(this.individual(individuals.length));
      else flags.push(this.valued(0));
    }
    const structure = this.built(individuals, flags);
    this.compare(begin, structure);
    return structure;
  }
  /** Refuses what isn't written so: twice, or in another order than here or in the lines above. */
  compare(begin, structure) {
    const text = Line.write(structure, this.census.ordered), written = text && `  ${text}`, found = this.source.slice(begin, this.end);
    if (found === written) return;
    const same = [...written].findIndex((letter, i) => found[i] !== letter), at = same < 0 ? written.length : same;
    this.fault(at < written.length ? `\`${written.slice(at, at + 40)}\`` : "the end of the line", begin + at);
  }
  individual(number) {
    const start = this.at, isSummary = this.opens(), isNumbered = this.sees("#"), own = [], arrows = [];
    if (isNumbered) this.numeral(number);
    if (!isNumbered || this.skips("&")) {
      do own.push(this.valued(1)); while (this.skips("&"));
    }
    this.take(isSummary ? "))" : ")");
    if (this.sees("-")) do arrows.push(this.arrow()); while (this.skips("&"));
    return { start, isSummary, isNumbered, own, arrows };
  }
  /** Takes one bracket or two, which is answered. */
  opens() {
    this.take("(");
    return this.skips("(");
  }
  numeral(number) {
    const start = this.at;
    this.take("#");
    if (this.number(`\`#${number}\``) !== number) this.fault(`\`#${number}\`, the individual's number`, start);
  }
  arrow() {
    this.take("-");
    const { name, fact, value } = this.valued(2);
    this.take("->");
    const start = this.at, isSummary = this.opens();
    const called = this.skips("#") ? this.number("the number of an individual") : this.match(PREDICATE, "the name of an individual")[0];
    this.take(isSummary ? "))" : ")");
    return { name, fact, value, start, isSummary, called };
  }
  built(individuals, flags) {
    const structure = new Structure();
    if (individuals.length > 256) this.fault("at most 256 individuals", individuals[256].start);
    structure.individuals = individuals.map((_, u) => `i${u}`);
    individuals.forEach(({ own, isSummary }, u) => {
      for (const { name, value } of own) structure.set(name, 1, u, 0, value);
      if (isSummary) structure.set("sm", 1, u, 0, Kleene.MAYBE);
    });
    for (const { name, value } of flags) structure.set(name, 0, 0, 0, value);
    for (const told of [...individuals.flatMap(({ own, arrows }) => [own, arrows]), flags])
      this.census.follow(told.map(({ fact }) => fact));
    const places = this.places(individuals);
    individuals.forEach(({ arrows }, u) => {
      for (const arrow of arrows) structure.set(arrow.name, 2, u, this.aim(arrow, places, individuals), arrow.value);
    });
    this.census.noteStructure(structure);
    return structure;
  }
  /** By what is true of one individual alone, its number. */
  places(individuals) {
    const places = new Map(), seen = new Set();
    individuals.forEach(({ own }, u) => {
      for (const name of new Set(own.filter(({ value }) => value === Kleene.YES).map(({ name }) => name)))
        seen.has(name) ? places.delete(name) : places.set(name, u) && seen.add(name);
    });
    individuals.forEach(({ own, isNumbered, start }, u) => {
      const isTold = own.some(({ name }) => places.get(name) === u);
      if (isTold === isNumbered)
        this.fault(isTold ? "no number, since a predicate tells the individual from the others"
          : `\`#${u}\`, since no predicate tells the individual from the others`, start);
    });
    return places;
  }
  aim({ called, start, isSummary }, places, individuals) {
    const u = typeof called === "number" ? called : places.get(called), individual = individuals[u];
    if (!individual || individual.isSummary !== isSummary || individual.isNumbered !== (typeof called === "number"))
      this.fault("an individual as it is called in this line", start);
    return u;
  }
}
