import { html, link } from "./dom.mjs";
import { Links } from "./links.mjs";
import { treeElement } from "./svg.mjs";
import { Rows } from "./rows.mjs";

/* ======== Control graphs: nodes one below the other in depth-first order, loops on the left ======== */
export const GRAPH_STYLE = `
  .graph { font: 11px sans-serif; }
  .graph text { fill: var(--ink); }
  .graph .box { fill: var(--fill); stroke: var(--ink); }
  .graph .empty .box { fill: none; stroke: var(--warn); stroke-dasharray: 4 3; }
  .graph .edge { fill: none; stroke: var(--soft); stroke-width: 1.3px; stroke-linejoin: round; }
  .graph .head { fill: var(--soft); }
  .graph .warned { stroke: var(--warn); stroke-width: 2.2px; }
  .graph .caption { font-size: 10px; fill: var(--soft); }
  .graph .warning { fill: var(--warn); font-weight: 700; }`;
const MOST_DRAWN = 300; // edges; of more a table is shown
const TABLE_ROW = 24; // the height of a table's row
const CAPTION_ROW = 16, BOX = 28, MIDDLE = 60, CHANNEL = 12, LONGEST = 30;

const cut = (text, length) => text.length > length ? `${text.slice(0, length - 1)}…` : text;

/** Nodes in the order in which a walk from the first leaves them, backwards: what leads back is a loop. */
export const depthFirst = (nodes, edges) => {
  const next = new Map(nodes.map(node => [node, []])), seen = new Set(), left = [];
  for (const { source, target } of edges) next.get(source).push(target);
  for (const first of nodes) {
    if (seen.has(first)) continue;
    const open = [{ node: first, at: 0 }];
    const own = [];
    seen.add(first);
    while (open.length) {
      const top = open.at(-1), targets = next.get(top.node), target = targets[targets.length - 1 - top.at++]; // the first ends up in front
      if (target === undefined) own.push(open.pop().node);
      else if (!seen.has(target)) {
        seen.add(target);
        open.push({ node: target, at: 0 });
      }
    }
    left.push(...own.reverse());
  }
  return left;
};

/** Gives each interval the first channel that is free there; channels are counted from 0. */
export const channels = intervals => {
  const ends = [];
  for (const interval of [...intervals].sort((a, b) => a.low - b.low || b.high - a.high)) {
    const free = ends.findIndex(end => end < interval.low), channel = free < 0 ? ends.length : free;
    ends[channel] = interval.high;
    interval.channel = channel;
  }
  return ends.length;
};

/** The graph as shapes. Edges between the same nodes share a line, and each has its caption in a row of its own. */
export class GraphDrawing {
  constructor(nodes, edges, count, warned) {
    Object.assign(this, { count, warned, lines: [], captions: [], boxes: [] });
    this.order = depthFirst(nodes, edges);
    this.ranks = new Map(this.order.map((node, rank) => [node, rank]));
    this.group(edges);
    this.putRows();
    this.putChannels();
    for (const bundle of this.bundles) this.draw(bundle);
    for (const node of this.order) this.box(node);
  }
  group(edges) {
    const bundles = new Map();
    edges.forEach((edge, number) => {
      const key = `${edge.source} ${edge.target}`, bundle = bundles.get(key) ?? { source: edge.source, target: edge.target, edges: [] };
      bundle.edges.push({ ...edge, number });
      bundles.set(key, bundle);
    });
    this.bundles = [...bundles.values()];
    for (const bundle of this.bundles) {
      const span = this.ranks.get(bundle.target) - this.ranks.get(bundle.source);
      bundle.side = span === 1 ? "straight" : span > 1 ? "right" : "left";
    }
  }
  /** Where each box is and, below it, a row for each caption: what goes straight last. */
  putRows() {
    const out = new Map(this.order.map(node => [node, []]));
    for (const bundle of this.bundles) out.get(bundle.source).push(bundle);
    let top = 30;
    this.tops = new Map();
    this.widest = 0;
    for (const node of this.order) {
      this.tops.set(node, top);
      top += BOX + 10;
      for (const bundle of out.get(node).sort((a, b) => (a.side === "straight") - (b.side === "straight"))) {
        for (const edge of bundle.edges) {
          const messages = this.warned.get(edge.number) ?? [], text = (messages.length ? "⚠ " : "") + cut(edge.caption, LONGEST);
          top += CAPTION_ROW;
          this.captions.push({ edge, text, messages, x: MIDDLE + 6, y: top - 4 });
          this.widest = Math.max(this.widest, text.length * 6);
        }
        bundle.branch = top;
      }
      top += 14;
    }
    this.height = top + 10;
  }
  middle(node) { return this.tops.get(node) + BOX / 2; }
  putChannels() {
    const of = side => this.bundles.filter(bundle => bundle.side === side).map(bundle => {
      const ends = [bundle.branch, this.middle(bundle.target)];
      return Object.assign(bundle, { low: Math.min(...ends) - 6, high: Math.max(...ends) + 6 });
    });
    this.left = channels(of("left"));
    this.right = channels(of("right"));
    this.start = MIDDLE + Math.max(66, this.widest + 14);
  }
  /** The frame: what is on the left of it has negative places. */
  get frame() {
    const left = MIDDLE - 58 - 20 - CHANNEL * this.left;
    return { x: left, y: 0, width: this.start + CHANNEL * this.right + 12 - left, height: this.height };
  }
  draw({ source, target, side, branch, channel, edges }) {
    const from = this.tops.get(source) + BOX, to = this.tops.get(target), half = this.boxWidth(target) / 2, middle = this.middle(target);
    const x = side === "left" ? MIDDLE - 70 - CHANNEL * channel : this.start + CHANNEL * channel;
    const ways = { straight: `M${MIDDLE} ${from}V${to - 7}`, right: `M${MIDDLE} ${from}V${branch}H${x}V${middle}H${MIDDLE + half + 7}`,
      left: `M${MIDDLE} ${from}V${branch}H${x}V${middle}H${MIDDLE - half - 7}` };
    const heads = { straight: `M${MIDDLE} ${to}l-3.5 -8h7Z`, right: `M${MIDDLE + half} ${middle}l8 -3.5v7Z`, left: `M${MIDDLE - half} ${middle}l-8 -3.5v7Z` };
    const messages = edges.flatMap(({ number }) => this.warned.get(number) ?? []);
    this.lines.push({ way: ways[side], head: heads[side], isWarned: messages.length > 0, numbers: edges.map(({ number }) => number) });
  }
  nodeText(node) { return `${cut(node, 12)} · ${this.count(node) || "empty"}`; }
  boxWidth(node) { return Math.min(116, Math.max(48, this.nodeText(node).length * 6.4 + 14)); }
  box(node) { this.boxes.push({ node, text: this.nodeText(node), width: this.boxWidth(node), y: this.tops.get(node), count: this.count(node) }); }

  trees() {
    const line = ({ way, head, isWarned, numbers }) => ["g", { class: "line", "data-edges": ` ${numbers.join(" ")} ` },
      ["path", { class: isWarned ? "edge warned" : "edge", d: way }], ["path", { class: "head", d: head }]];
    const caption = ({ edge, text, messages, x, y }) => {
      const title = [`edge ${edge.number}: ${edge.source} ${edge.call} ${edge.target}`, ...edge.caption === edge.call ? [] : [edge.caption],
        ...edge.file ? [`${edge.file}:${edge.line}`] : [], ...messages].join("\n");
      return ["a", { href: Links.structure(edge.source), class: "caption-link", "data-edge": edge.number, "aria-label": title },
        ["title", {}, title], ["text", { class: messages.length ? "caption warning" : "caption", x, y }, text]];
    };
    const box = ({ node, text, width, y, count }) => {
      const label = `node ${node}: ${count ? `${count} structure${count > 1 ? "s" : ""}` : "empty"}`;
      return ["a", { href: Links.structure(node), "data-node": node, "aria-label": label, class: count ? "node" : "node empty" },
        ["title", {}, label], ["rect", { class: "box", x: MIDDLE - width / 2, y, width, height: BOX, rx: 7 }],
        ["text", { x: MIDDLE, y: y + 18, "text-anchor": "middle" }, text]];
    };
    return [...this.lines.map(line), ...this.captions.map(caption), ...this.boxes.map(box)];
  }
}

/** The graph on the page: drawn, or where it is too large as a table, with the neighbours of the node at hand drawn above it. */
export class ControlGraph {
  /** It is to stand in `scroller`. */
  constructor(nodes, edges, count, warned, scroller) {
    Object.assign(this, { nodes, edges, count, warned, scroller, isTable: edges.length > MOST_DRAWN || nodes.length > MOST_DRAWN });
    this.drawing = this.isTable ? null : new GraphDrawing(nodes, edges, count, warned);
    this.around = html("div");
    this.element = html("div", {}, ...this.isTable ? [this.around, this.table(scroller)] : [ControlGraph.element(this.drawing)]);
  }
  /** To be called once it stands on the page. */
  shown() { this.rows?.show(this.nodes.length); }
  static element(drawing) {
    const { x, y, width, height } = drawing.frame;
    return treeElement(["svg", { class: "graph", role: "group", "aria-label": "Control graph", width, height, viewBox: `${x} ${y} ${width} ${height}` },
      ...drawing.trees()]);
  }
  /** Rows of nodes, with how many structures each has and how many edges leave it. */
  table(scroller) {
    const out = new Map(this.nodes.map(node => [node, 0]));
    for (const { source } of this.edges) out.set(source, out.get(source) + 1);
    const cells = (role, ...texts) => texts.map(text => html("span", { role }, text));
    const row = i => {
      const node = this.nodes[i];
      return html("div", { className: node === this.current ? "line row now" : "line row", role: "row" },
        ...cells("cell", link(Links.structure(node), cut(node, 30)), String(this.count(node) || "empty"), String(out.get(node))));
    };
    this.rows = new Rows(scroller, TABLE_ROW, row);
    const head = html("div", { className: "row", role: "row" }, ...cells("columnheader", "Node", "Structures", "Edges"));
    return html("div", { role: "table", "aria-label": "Nodes", "aria-rowcount": String(this.nodes.length) }, head, this.rows.sheet);
  }
  /** Marks the node at hand, and no other; in a table its neighbours are drawn. */
  mark(name) {
    if (this.isTable) this.showAround(name);
    this.rows?.refresh();
    for (const box of this.element.querySelectorAll("a.node")) {
      if (box.dataset.node !== name) box.removeAttribute("aria-current");
      else {
        box.setAttribute("aria-current", "true");
        this.reveal(box);
      }
    }
  }
  /** Scrolls what is drawn into view; not every browser does so by itself with parts of drawings. */
  reveal(part) {
    const own = part.getBoundingClientRect(), room = this.scroller.getBoundingClientRect();
    if (own.top < room.top) this.scroller.scrollTop += own.top - room.top - 40;
    else if (own.bottom > room.bottom) this.scroller.scrollTop += own.bottom - room.bottom + 40;
    if (own.left < room.left || own.right > room.right) this.scroller.scrollLeft += own.left - room.left - 20;
  }
  showAround(name) {
    this.current = name;
    const near = this.edges.map((edge, number) => ({ ...edge, number })).filter(({ source, target }) => source === name || target === name).slice(0, 60);
    const nodes = [...new Set([name, ...near.flatMap(({ source, target }) => [source, target])])].filter(node => this.nodes.includes(node));
    const drawing = nodes.length ? new GraphDrawing(nodes, near, this.count, new Map(near.map(({ number }, i) => [i, this.warned.get(number) ?? []]))) : null;
    this.around.replaceChildren(...drawing ? [ControlGraph.element(drawing)] : []);
  }
  /** Lights up the edge at hand, if there is one. */
  markEdge(number) {
    for (const line of this.element.querySelectorAll(".line")) line.classList.toggle("lit", line.dataset.edges.includes(` ${number} `));
    for (const caption of this.element.querySelectorAll(".caption-link")) caption.classList.toggle("lit", caption.dataset.edge === String(number));
  }
}
