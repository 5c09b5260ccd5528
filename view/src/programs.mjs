import { Kind, Fault, Cursor, bytesOf } from "./tokens.mjs";
import { FormulaReader } from "./formulas.mjs";

/* ======== Programs: predicates, actions and control edges of a TVP text, or of a source program ======== */
const PROPERTIES = new Set("unique function invfunction abs nonabs transitive reflexive symmetric box pointer".split(" "));

const MOST_ITEMS = 65536;
const LONGEST_TEXT = 4194304;

export class Program {
  edges = []; // with source, target, call, caption, messages, and the file and line in which they stand
  predicates = new Map(); // by name: arity, isDefined, isUnique, isClosure, holds, rests
  missing = []; // included files that weren't given
  lines = []; // of its text, with what is included: text, file, line
  /** What \`tvla-explain edges\` wrote, as a program of which no more is known. */
  static ofEdges(edges) {
    const program = new Program();
    program.edges = edges.map(edge => ({ ...edge, caption: edge.call }));
    program.hasPredicates = false;
    return program;
  }
  hasPredicates = true;
  get knowsPredicates() { return this.hasPredicates && !this.missing.length; }
  get knowsMessages() { return !this.missing.length; }
  /** Reads a program; `files` has the paths and texts of those that it may include. */
  static read(file, files = []) {
    const program = new Program();
    program.lines = new Includes(files, program.missing).lines(file, 0);
    program.reader = new ProgramReader(program, bytesOf(program.lines.map(({ text }) => text).join("\n")));
    program.reader.read();
    return program;
  }
  /** Reads a source program, as the program that it is compiled to. */
  static readSource(file) {
    const program = new Program(), source = new SourceReader(bytesOf(file.text));
    source.read();
    program.isCompiled = true;
    program.lines = file.text.split("\n").map((text, i) => ({ text, file: file.path, line: i + 1 }));
    program.reader = new ProgramReader(program, bytesOf(source.compiled()));
    program.reader.read();
    program.edges.forEach((edge, i) => {
      const { call, line } = source.edges[i];
      Object.assign(edge, { call, caption: call, file: file.path, line });
    });
    return program;
  }
  /** The names of its nodes, in the order in which edges first name them. */
  get nodes() { return [...new Set(this.edges.flatMap(({ source, target }) => [source, target]))]; }
  /** What the action of an edge does: its formulas, with parameters put in. */
  effect(edge) { return this.reader.effect(edge); }
  /** The lines of an edge's action, with their files; of a source program none. */
  actionLines({ name }) {
    const { from, to } = this.reader?.actions.get(name) ?? {};
    return from === undefined || this.isCompiled ? [] : this.lines.slice(from, to + 1);
  }
  /** A fault of the text with its includes, as a line. */
  static told(fault, file, files) {
    if (fault.at === 0) return fault.told(file.path, bytesOf(file.text));
    const lines = new Includes(files, []).lines(file, 0), bytes = bytesOf(lines.map(({ text }) => text).join("\n"));
    const front = new TextDecoder("latin1").decode(bytes.subarray(0, fault.at)).split("\n");
    const at = lines[front.length - 1] ?? { file: file.path, line: front.length };
    return `${at.file}, line ${at.line}, column ${front.at(-1).length + 1}: ${fault.message}`;
  }
}

/** Puts in included files, by their paths, or by their last names where no path fits. */
export class Includes {
  constructor(files, missing) { Object.assign(this, { files, missing, total: 0, found: new Map() }); }
  /** The lines of a file with what it includes, each with its file and number. */
  lines(file, depth, outer = [file]) {
    const lines = [];
    let isOpen = false; // a block comment
    file.text.split("\n").forEach((text, i) => {
      this.total += text.length + 1;
      if (this.total > LONGEST_TEXT) throw new Fault(0, `at most ${LONGEST_TEXT} bytes with what is included`, "more");
      const include = isOpen ? null : /^[ \t]*#[ \t]*include[ \t]*"([^"]+)"[ \t]*\r?$/.exec(text);
      if (!include) lines.push({ text, file: file.path, line: i + 1 });
      else for (const inner of this.find(file.path, include[1]).filter(inner => depth < 16 && !outer.includes(inner)))
        lines.push(...this.lines(inner, depth + 1, [...outer, inner]));
      isOpen = Includes.leavesOpen(text, isOpen);
    });
    return lines;
  }
  static leavesOpen(text, isOpen) {
    for (const [mark] of text.matchAll(/\/\*|\*\/|\/\/|"[^"]*"?/g)) {
      if (!isOpen && mark === "//") return false;
      if (mark === "*/" || !isOpen && mark === "/*") isOpen = mark === "/*";
    }
    return isOpen;
  }
  find(from, name) {
    const key = `${from}\n${name}`;
    if (!this.found.has(key)) this.found.set(key, this.search(from, name));
    return this.found.get(key);
  }
  search(from, name) {
    const path = Includes.joined(from, name), last = name.split("/").pop();
    const exact = this.files.filter(file => Includes.joined("", file.path) === path);
    const found = exact.length ? exact : this.files.filter(file => file.path.split("/").pop() === last);
    if (!found.length && !this.missing.includes(name)) this.missing.push(name);
    return found;
  }
  static joined(from, name) {
    const parts = [];
    for (const part of (name[0] === "/" ? name : from.replace(/[^/]*$/, "") + name).split("/"))
      if (part === ".." && parts.length && parts.at(-1) !== "..") parts.pop();
      else if (part && part !== ".") parts.push(part);
    return parts.join("/");
  }
}

/** Reads predicates, captions and messages of actions, and edges. What else an action does is read when it is asked for. */
class ProgramReader {
  constructor(program, bytes) {
    const cursor = new Cursor(bytes);
    Object.assign(this, { program, cursor, formulas: new FormulaReader(cursor), sets: new Map(), actions: new Map(),
      effects: new Map(), silent: 0, items: 0, seen: { at: 0, line: 0 } });
  }
  read() {
    const cursor = this.cursor;
    this.declarations(new Map());
    cursor.take("%%", "a declaration or `%%`");
    while (cursor.isDirective("action")) this.action();
    cursor.take("%%", "`%action` or `%%`");
    while (cursor.kind === Kind.WORD) this.edge();
    if (cursor.kind !== "%%" && cursor.kind !== Kind.END)
      cursor.fault("an edge or the end of the file");
  }
  /** Reads declarations; `scope` has what the variables of `foreach` stand for. */
  declarations(scope) {
    for (const cursor = this.cursor; ;) {
      if (cursor.isWord("foreach")) this.forEach(scope, inner => this.declarations(inner));
      else if (cursor.isDirective("s")) {
        cursor.advance();
        const name = cursor.takeIdentifier("the name of a set");
        if (cursor.kind === "=") cursor.advance();
        this.sets.set(name, this.set(scope));
      } else if (["%p", "%i", "%r"].includes(cursor.text())) this.declaration(scope);
      else return;
    }
  }
  /** Reads the braces of a `foreach` once for each member. */
  forEach(scope, body) {
    const cursor = this.cursor;
    cursor.advance();
    cursor.take("(");
    const variable = cursor.takeIdentifier("a variable");
    cursor.takeWord("in");
    const members = this.set(scope), at = cursor.start, isEmpty = !members.length;
    this.silent += isEmpty; // the braces are passed once
    for (const member of isEmpty ? [variable] : members) {
      if (++this.items > MOST_ITEMS) cursor.fault(`at most ${MOST_ITEMS} members that are gone through`);
      cursor.goTo(at);
      cursor.take(")");
      cursor.take("{");
      body(new Map(scope).set(variable, member));
      cursor.take("}", "`}`");
    }
    this.silent -= isEmpty;
  }
  /** The members of a set: of its terms, which `+` and `-` join from the left. */
  set(scope) {
    const cursor = this.cursor, members = new Set(this.setTerm(scope));
    while (cursor.kind === "+" || cursor.kind === "-") {
      const adds = cursor.take(cursor.kind) === "+";
      for (const member of this.setTerm(scope)) adds ? members.add(member) : members.delete(member);
    }
    return [...members];
  }
  setTerm(scope) {
    const cursor = this.cursor, members = [], isSum = cursor.kind === "(";
    if (cursor.kind === Kind.WORD) return this.sets.get(cursor.takeIdentifier("a set")) ?? [];
    cursor.take(isSum ? "(" : "{", "a set");
    if (isSum) members.push(...this.set(scope));
    else cursor.list(() => cursor.atIdentifier(), () => {
      const member = cursor.takeIdentifier("a member");
      members.push(scope.get(member) ?? member);
    });
    cursor.take(isSum ? ")" : "}", isSum ? "`)`" : "`,` or `}`");
    return members;
  }
  /** A predicate, or a rule, which is passed over. */
  declaration(scope) {
    const cursor = this.cursor, directive = cursor.take(Kind.DIRECTIVE);
    if (directive === "%r") {
      this.formulas.read(scope);
      cursor.take("==>");
      this.formulas.read(scope);
      return;
    }
    const name = this.formulas.name(scope), parameters = this.formulas.variables(), isDefined = directive === "%i";
    if (isDefined) cursor.take("=");
    const definition = isDefined ? this.formulas.read(scope) : null, properties = new Set();
    while (cursor.kind === Kind.WORD && PROPERTIES.has(cursor.text())) properties.add(cursor.take(Kind.WORD));
    if (this.silent) return;
    const holds = definition ? ProgramReader.held(definition, parameters) : [];
    const isClosure = holds.some(({ isWalk }) => isWalk) || properties.has("transitive") || properties.has("reflexive");
    this.program.predicates.set(name, { name, arity: parameters.length, isDefined, isClosure,
      isUnique: properties.has("unique"), isAbstract: parameters.length === 1 && !properties.has("nonabs"),
      holds: holds.map(held => held.name), rests: definition ? ProgramReader.named(definition) : [] });
  }
  /** What a definition holds: `p(v, w) | q(v, w)` or `p*(v, w)` is true wherever `p(v, w)` is. */
  static held(formula, [v, w]) {
    if (formula.kind === "|")
      return [formula.left, formula.right].map(part => ProgramReader.held(part, [v, w])).reduce((left, right) =>
        left.length && right.length ? [...left, ...right] : []);
    const isHeld = ["atom", "walk"].includes(formula.kind) && formula.args[0] === v && formula.args[1] === w;
    return isHeld && w ? [{ name: formula.name, isWalk: formula.kind === "walk" }] : [];
  }
  /** The names of the predicates in a formula. */
  static named(formula) {
    const parts = [formula.of, formula.left, formula.right, formula.test, formula.yes, formula.no];
    return [...formula.name ? [formula.name] : [], ...parts.filter(part => part).flatMap(ProgramReader.named)];
  }
  /** An action: where it stands, its caption and its messages; what else is in it is passed over. */
  action() {
    const cursor = this.cursor, from = this.lineAt(cursor.start);
    cursor.advance();
    const name = cursor.takeIdentifier("the name of an action"), parameters = this.formulas.variables();
    const action = { parameters, from, body: cursor.start, caption: [], messages: [] };
    cursor.take("{");
    for (let depth = 1; depth > 0;) {
      if (cursor.kind === Kind.END) cursor.fault("`}` at the end of an action");
      depth += (cursor.kind === "{") - (cursor.kind === "}");
      const isCaption = cursor.isDirective("t"), isMessage = cursor.isDirective("message");
      cursor.advance();
      if (isCaption) action.caption = this.pieces();
      if (isMessage) action.messages.push(this.messagePieces());
      if (depth > 0) action.to = cursor.start;
    }
    action.to = this.lineAt(action.to);
    this.actions.set(name, action);
  }
  messagePieces() {
    const cursor = this.cursor;
    for (let isArrow = false; !(isArrow && cursor.kind === Kind.STRING); cursor.advance()) {
      if (cursor.kind === Kind.END || cursor.kind === Kind.DIRECTIVE) cursor.fault("`->` and the text of a message");
      isArrow = cursor.kind === "->";
    }
    return this.pieces();
  }
  pieces() {
    const cursor = this.cursor, pieces = [];
    for (; [Kind.STRING, Kind.WORD, "+"].includes(cursor.kind); cursor.advance())
      if (cursor.kind !== "+") pieces.push(cursor.text());
    return pieces;
  }
  edge() {
    const cursor = this.cursor, at = cursor.start, source = cursor.take(Kind.WORD, "a node");
    const name = cursor.takeIdentifier("the name of an action"), given = this.formulas.variables();
    const target = cursor.take(Kind.WORD, "a node"), call = `${name}(${given.join(", ")})`;
    const { parameters = [], caption = [], messages = [] } = this.actions.get(name) ?? {};
    const scope = new Map(parameters.map((parameter, i) => [parameter, given[i]]));
    const joined = pieces =>
      pieces.map(piece => piece[0] === "\"" ? piece.slice(1, -1) : scope.get(piece) ?? piece).join("");
    const { file, line } = this.program.lines[this.lineAt(at)] ?? {};
    this.program.edges.push({ number: this.program.edges.length, source, target, call, name, scope, file, line,
      caption: joined(caption) || call, messages: messages.map(joined) });
  }
  /** The number of the line of a place behind all those asked for before. */
  lineAt(at) {
    for (; this.seen.at < at; this.seen.at++) if (this.cursor.bytes[this.seen.at] === 10) this.seen.line++;
    return this.seen.line;
  }
  /** The parts of an edge's action: focus, precondition, messages, isNew, retain and updates. */
  effect({ call, name, scope }) {
    if (!this.effects.has(call)) this.effects.set(call, this.readEffect(this.actions.get(name), scope));
    return this.effects.get(call);
  }
  readEffect(action, scope) {
    const { cursor, formulas } = this, effect = { messages: [], updates: [], isNew: false };
    if (!action) return effect;
    this.items = 0;
    cursor.goTo(action.body);
    cursor.take("{");
    while (cursor.kind !== "}") {
      const part = cursor.kind === "{" ? "{" : cursor.take(Kind.DIRECTIVE, "a part of an action or `}`");
      if (part === "%t") this.pieces();
      else if (part === "%f") this.focus(scope);
      else if (part === "%p") effect.precondition = formulas.read(scope);
      else if (part === "%message") effect.messages.push(this.message(scope));
      else if (part === "%new") effect.isNew = true;
      else if (part === "%retain") effect.retain = formulas.read(scope);
      else this.block(scope, effect.updates);
    }
    return effect;
  }
  focus(scope) {
    const { cursor } = this;
    cursor.take("{");
    cursor.list(() => cursor.kind !== "}", () => this.formulas.read(scope));
    cursor.take("}");
  }
  message(scope) {
    const formula = this.formulas.read(scope);
    this.cursor.take("->");
    this.pieces();
    return formula;
  }
  block(scope, updates) {
    this.cursor.take("{");
    this.updates(scope, updates);
    this.cursor.take("}", "an update or `}`");
  }
  updates(scope, updates) {
    const { cursor, formulas } = this;
    while (cursor.kind === Kind.WORD) {
      if (cursor.isWord("foreach")) {
        this.forEach(scope, inner => this.updates(inner, updates));
        continue;
      }
      const name = formulas.name(scope), variables = formulas.variables();
      cursor.take("=");
      const formula = formulas.read(scope);
      if (!this.silent) updates.push({ name, variables, formula });
    }
  }
}

/** Reads a source program and writes the program that it is compiled to: an edge for an assignment, two for a test. */
class SourceReader {
  constructor(bytes) {
    Object.assign(this, { cursor: new Cursor(bytes), statements: 0, edges: [], names: {}, seen: { at: 0, line: 1 } });
  }
  read() {
    const cursor = this.cursor;
    for (const word of ["vars", "fields"]) {
      const names = this.names[word] = [];
      cursor.takeWord(word);
      cursor.take("{");
      cursor.list(() => true, () => names.push(cursor.takeIdentifier("a name")));
      cursor.take("}", "`,` or `}`");
    }
    for (const edge of this.block([])) edge.target = "Exit";
    if (cursor.kind !== Kind.END) cursor.fault("a statement or the end of the file");
  }
  /** Reads statements. The edges of `open` lead to the first of them; those that lead behind the last are answered. */
  block(open) {
    if (++this.height > 200) this.cursor.fault("at most 200 blocks that are open");
    while (this.cursor.kind === Kind.WORD) open = this.statement(open);
    this.height--;
    return open;
  }
  height = 0;
  statement(open) {
    const cursor = this.cursor, source = `S${this.statements++}`, line = this.lineAt(cursor.start);
    for (const edge of open) edge.target = source;
    if (!cursor.isWord("if") && !cursor.isWord("while")) return [this.edge(source, line, this.assignment())];
    const isLoop = cursor.isWord("while"), [yesWay, noWay] = this.test();
    const yes = this.edge(source, line, yesWay), no = this.edge(source, line, noWay), ends = this.braced([yes]);
    if (isLoop) for (const edge of ends) edge.target = source;
    if (isLoop || !cursor.isWord("else")) return isLoop ? [no] : [...ends, no];
    cursor.advance();
    return [...ends, ...this.braced([no])];
  }
  lineAt(at) {
    for (; this.seen.at < at; this.seen.at++) if (this.cursor.bytes[this.seen.at] === 10) this.seen.line++;
    return this.seen.line;
  }
  /** An edge with its statement and the parts of its action. */
  edge(source, line, { call, parts }) {
    const edge = { source, line, call, parts };
    this.edges.push(edge);
    return edge;
  }
  test() {
    const cursor = this.cursor;
    cursor.advance();
    cursor.take("(");
    if (cursor.kind === "*") {
      cursor.advance();
      cursor.take(")");
      return [{ call: "*", parts: "" }, { call: "*", parts: "" }];
    }
    const left = cursor.takeIdentifier("a variable");
    if (cursor.kind !== "==" && cursor.kind !== "!=") cursor.fault("`==` or `!=`");
    const isEqual = cursor.take(cursor.kind) === "==", right = cursor.takeIdentifier("a variable or `null`");
    cursor.take(")");
    const focus = right === "null" ? `${left}(v)` : `${left}(v), ${right}(v)`;
    const holds = right === "null" ? `!(E(v) ${left}(v))` : `A(v) ${left}(v) <-> ${right}(v)`;
    const way = isTrue => ({ call: `${left} ${isTrue ? "==" : "!="} ${right}`,
      parts: `%f { ${focus} } %p ${isTrue ? holds : `!(${holds})`}` });
    return [way(isEqual), way(!isEqual)];
  }
  braced(open) {
    this.cursor.take("{");
    const ends = this.block(open);
    this.cursor.take("}", "a statement or `}`");
    return ends;
  }
  assignment() {
    const left = this.place();
    this.cursor.take("=", "`=` or `->`");
    const right = this.place();
    return { call: `${left.text} = ${right.text}`, parts: SourceReader.parts(left, right) };
  }
  place() {
    const cursor = this.cursor, variable = cursor.takeIdentifier("a variable");
    if (cursor.kind !== "->") return { variable, text: variable };
    cursor.advance();
    const field = cursor.takeIdentifier("a field");
    return { variable, field, text: `${variable}->${field}` };
  }
  /** The parts of an assignment's action, as docs/FORMATS.md has them. */
  static parts(left, right) {
    const x = left.variable, y = right.variable;
    const follows = z => `%message !(E(v) ${z}(v)) -> "null dereference of ${z}" %p E(v) ${z}(v)`;
    if (left.field) {
      const kept = `!${x}(v_1) & ${left.field}(v_1, v_2)`, isNull = y === "null";
      return `%f { ${x}(v)${isNull ? "" : `, ${y}(v)`} } ${follows(x)} `
        + `{ ${left.field}(v_1, v_2) = ${isNull ? kept : `${x}(v_1) & ${y}(v_2) | ${kept}`} }`;
    }
    if (right.field) {
      const step = `E(v_1) ${y}(v_1) & ${right.field}(v_1, v)`;
      return `%f { ${step} } ${follows(y)} { ${x}(v) = ${step} }`;
    }
    if (y === "null") return `{ ${x}(v) = 0 }`;
    return y === "new" ? `%new { ${x}(v) = isNew(v) }` : `%f { ${y}(v) } { ${x}(v) = ${y}(v) }`;
  }
  /** The text of the compiled program. */
  compiled() {
    const { vars, fields } = this.names;
    const reached = fields.flatMap(field =>
      vars.map(x => `%i r[${field},${x}](v) = E(v_1) ${x}(v_1) & ${field}*(v_1, v)`));
    const declared = [...vars.map(x => `%p ${x}(v) unique`), ...fields.map(field => `%p ${field}(v, w) function`)];
    return [...declared, ...reached, "%%", ...this.edges.map(({ parts }, i) => `%action A${i}() { ${parts} }`), "%%",
      ...this.edges.map(({ source, target }, i) => `${source} A${i}() ${target}`)].join("\n");
  }
}
