import { byId, html, link } from "./dom.mjs";
import { Links } from "./links.mjs";
import { Rows } from "./rows.mjs";

/* ======== The program's text: lines that lead to nodes and structures, with messages in the margin ======== */
const TEXT_HEIGHT = 18;

export class ProgramText {
  constructor(page) {
    Object.assign(this, { page, lines: [], open: new Set(), now: new Set(), lit: new Set(), edgesAt: new Map() });
    this.rows = new Rows(byId("text"), TEXT_HEIGHT, i => this.row(this.shown[i]));
  }
  show(program) {
    const { page } = this;
    this.lines = (program?.lines ?? []).map((line, i) => ({ ...line, at: i }));
    this.main = this.lines.at(-1)?.file;
    this.edgesAt = new Map();
    (program?.edges ?? []).forEach(({ file, line }, number) => {
      const key = `${file}:${line}`;
      this.edgesAt.has(key) ? this.edgesAt.get(key).push(number) : this.edgesAt.set(key, [number]);
    });
    this.messages = new Map();
    for (const message of page.report?.messages ?? []) this.messages.set(message.edge, [...this.messages.get(message.edge) ?? [], message]);
    for (const set of [this.open, this.now, this.lit]) set.clear();
    byId("text").hidden = !this.lines.length;
    byId("text").replaceChildren(html("h2", { textContent: this.main ?? "" }), this.rows.sheet);
    this.fold();
  }
  /** Finds out which lines are shown: those of included files where they are open. */
  fold() {
    this.shown = [];
    let file = this.main;
    for (const line of this.lines) {
      if (line.file !== file && line.file !== this.main) this.shown.push({ heading: line.file });
      file = line.file;
      if (file === this.main || this.open.has(file)) this.shown.push(line);
    }
    this.rows.show(this.shown.length);
  }
  row({ heading, text, file, line }) {
    if (heading) {
      const isOpen = this.open.has(heading), element = html("button", { className: "line heading", textContent: `${isOpen ? "▾" : "▸"} ${heading}`, "aria-expanded": String(isOpen) });
      element.addEventListener("click", () => this.toggle(heading));
      return element;
    }
    const key = `${file}:${line}`, edges = this.edgesAt.get(key) ?? [], first = this.page.edges[edges[0]];
    const element = html("div", { className: `line${this.now.has(key) ? " now" : ""}${this.lit.has(key) ? " lit" : ""}` }, html("span", { className: "number", textContent: line }));
    element.append(first ? link(Links.structure(first.source), text || " ") : text || " ");
    for (const message of edges.flatMap(number => this.messages.get(number) ?? []))
      element.append(" ", html("span", { className: "margin", textContent: `⚠ ${message.text}` }));
    if (first) element.addEventListener("click", () => this.page.lightEdge(edges[0]));
    return element;
  }
  toggle(file) {
    this.open.has(file) ? this.open.delete(file) : this.open.add(file);
    this.fold();
  }
  reveal(key) {
    const at = this.shown.findIndex(({ file, line }) => `${file}:${line}` === key);
    if (at >= 0) this.rows.reveal(at);
  }
  /** Marks the lines of the edges that leave a node. */
  mark(node) {
    this.now = new Set((this.page.program?.edges ?? []).filter(({ source }) => source === node).map(({ file, line }) => `${file}:${line}`));
    this.rows.refresh();
    if (this.now.size) this.reveal([...this.now][0]);
  }
  /** Lights up the line of an edge, and those of its action, whose file is opened. */
  markEdge(number) {
    const edge = this.page.program?.edges[number], action = edge ? this.page.program.actionLines(edge) : [];
    this.lit = new Set(edge ? [edge, ...action].map(({ file, line }) => `${file}:${line}`) : []);
    for (const { file } of action) if (file !== this.main) this.open.add(file);
    this.fold();
    if (edge) this.reveal(`${edge.file}:${edge.line}`);
  }
}
