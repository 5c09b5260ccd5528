import { Kleene } from "./kleene.mjs";
import { Kind } from "./tokens.mjs";

/* ======== Formulas: trees, their values in a structure ======== */
const HIGHEST = 200; // constructs that may be open at one place

/** Reads formulas; `scope` has what parameters and the variables of `foreach` stand for in names. */
export class FormulaReader {
  constructor(cursor) { Object.assign(this, { cursor, height: 0 }); }
  read(scope) {
    this.scope = scope;
    return this.choice();
  }
  choice() {
    if (++this.height > HIGHEST) this.cursor.fault(`at most ${HIGHEST} constructs that are open`);
    const test = this.chain(["<->"], () => this.implication());
    const formula = this.skips("?") ? { kind: "choice", test, yes: this.choice(), no: this.behind(":") } : test;
    this.height--;
    return formula;
  }
  behind(mark) {
    this.cursor.take(mark);
    return this.choice();
  }
  skips(mark) {
    if (this.cursor.kind !== mark) return false;
    this.cursor.advance();
    return true;
  }
  chain(marks, part) {
    let left = part();
    for (let count = 2; marks.includes(this.cursor.kind); count++) {
      if (count > HIGHEST) this.cursor.fault(`at most ${HIGHEST} constructs that are open`);
      const kind = this.cursor.take(this.cursor.kind);
      left = { kind, left, right: part() };
    }
    return left;
  }
  implication() {
    const parts = [this.chain(["|"], () => this.conjunction())], cursor = this.cursor;
    while (cursor.kind === "->") {
      const at = cursor.start;
      cursor.advance();
      if (cursor.kind === Kind.STRING) { // the arrow of a message
        cursor.goTo(at);
        break;
      }
      parts.push(this.chain(["|"], () => this.conjunction()));
      if (parts.length > HIGHEST) cursor.fault(`at most ${HIGHEST} constructs that are open`);
    }
    return parts.reduceRight((right, left) => ({ kind: "->", left, right }));
  }
  conjunction() { return this.chain(["&"], () => this.unary()); }
  unary() {
    const cursor = this.cursor;
    if (++this.height > HIGHEST) cursor.fault(`at most ${HIGHEST} constructs that are open`);
    const formula = this.skips("!") ? { kind: "!", of: this.unary() } : this.bound();
    this.height--;
    return formula;
  }
  bound() {
    const cursor = this.cursor;
    if (cursor.isWord("E") || cursor.isWord("A")) {
      const kind = cursor.take(Kind.WORD), variables = this.variables();
      return { kind, variables, of: this.choice() };
    }
    if (cursor.isWord("TC")) {
      cursor.advance();
      const ends = this.variables(), variables = this.variables();
      return { kind: "TC", ends, variables, of: this.choice() };
    }
    if (cursor.kind === Kind.HALF) return { kind: "value", value: this.constant(Kleene.MAYBE) };
    if (cursor.isWord("0")) return { kind: "value", value: this.constant(Kleene.NO) };
    if (cursor.isWord("1")) return { kind: "value", value: this.constant(Kleene.YES) };
    if (!this.skips("(")) return this.atom();
    const formula = this.choice();
    cursor.take(")");
    return formula;
  }
  constant(value) {
    this.cursor.advance();
    return value;
  }
  atom() {
    const cursor = this.cursor, at = cursor.start, word = cursor.takeIdentifier("a formula");
    if (cursor.kind === "==" || cursor.kind === "!=") {
      const isEqual = cursor.take(cursor.kind) === "==";
      const formula = { kind: "==", args: [word, cursor.takeIdentifier("a variable")] };
      return isEqual ? formula : { kind: "!", of: formula };
    }
    cursor.goTo(at);
    const name = this.name(this.scope);
    if (cursor.kind !== "*" && cursor.kind !== "+") return { kind: "atom", name, args: this.variables() };
    return { kind: "walk", isReflexive: cursor.take(cursor.kind) === "*", name, args: this.variables() };
  }
  name(scope) {
    const cursor = this.cursor, standsFor = word => scope.get(word) ?? word, inner = [];
    const head = standsFor(cursor.takeIdentifier("the name of a predicate"));
    if (!this.skips("[")) return head;
    cursor.list(() => true, () => inner.push(standsFor(cursor.takeIdentifier("a name in brackets"))));
    cursor.take("]", "`,` or `]`");
    return `${head}[${inner.join(",")}]`;
  }
  variables() {
    const cursor = this.cursor, names = [];
    cursor.take("(");
    cursor.list(() => cursor.atIdentifier(), () => names.push(cursor.takeIdentifier("a name")));
    cursor.take(")", "`,` or `)`");
    return names;
  }
}

/** What formulas come to in one structure, by Kleene's values: of each heap of it the value is that, or it is 1/2. */
export class Valuation {
  constructor(structure) {
    this.structure = structure;
    this.walks = new Map();
  }
  /** `at` takes variables to individuals. */
  value(formula, at = {}) {
    const { structure } = this, of = part => this.value(part, at);
    switch (formula.kind) {
      case "value": return formula.value;
      case "atom": return structure.value(formula.name, ...formula.args.map(variable => at[variable]));
      case "==": return this.same(...formula.args.map(variable => at[variable]));
      case "walk": return this.walk(formula, ...formula.args.map(variable => at[variable]));
      case "!": return Kleene.not(of(formula.of));
      case "&": return Kleene.and(of(formula.left), of(formula.right));
      case "|": return Kleene.or(of(formula.left), of(formula.right));
      case "->": return Kleene.or(Kleene.not(of(formula.left)), of(formula.right));
      case "<->": return Kleene.equal(of(formula.left), of(formula.right));
      case "E": return this.some(formula.variables, formula.of, at);
      case "A": return Kleene.not(this.some(formula.variables, { kind: "!", of: formula.of }, at));
      case "TC": return this.closure(formula, at);
      default: return this.choice(formula, of);
    }
  }
  choice({ test, yes, no }, of) {
    const value = of(test);
    if (value !== Kleene.MAYBE) return of(value ? yes : no);
    return of(yes) === of(no) ? of(yes) : Kleene.MAYBE;
  }
  same(u, v) { return u !== v ? Kleene.NO : this.structure.isSummary(u) ? Kleene.MAYBE : Kleene.YES; }
  some([variable, ...others], formula, at) {
    if (variable === undefined) return this.value(formula, at);
    let found = Kleene.NO;
    for (const u of this.structure.cells) {
      found = Kleene.or(found, this.some(others, formula, { ...at, [variable]: u }));
      if (found === Kleene.YES) break;
    }
    return found;
  }
  walk({ name, isReflexive }, u, v) {
    if (!this.walks.has(name)) this.walks.set(name, this.closed((a, b) => this.structure.value(name, a, b)));
    const walked = this.walks.get(name)[u][v];
    return isReflexive ? Kleene.or(walked, this.same(u, v)) : walked;
  }
  closure({ ends, variables: [left, right], of }, at) {
    const table = this.closed((a, b) => this.value(of, { ...at, [left]: a, [right]: b }));
    return table[at[ends[0]]][at[ends[1]]];
  }
  /** The transitive closure of a relation, as a table. */
  closed(value) {
    const { cells } = this.structure, table = cells.map(u => cells.map(v => value(u, v)));
    for (const w of cells) for (const u of cells) for (const v of cells)
      table[u][v] = Kleene.or(table[u][v], Kleene.and(table[u][w], table[w][v]));
    return table;
  }
}
