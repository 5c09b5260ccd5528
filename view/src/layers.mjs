/* ======== Layers: cells, labels and the slots of long arrows, each in a rank, and their places across ======== */
const MOST_SLOTS = 6000; // beyond these long arrows have none
const SWEEPS = 8;

/** One component. Cells stand in even layers, labels in odd ones; an arrow goes through a slot of each layer that it passes. */
export class Layers {
  /** `extent(u)` says how far a cell reaches before and after its middle, across and along; `label(arrow)` the same of a label. */
  constructor(layout, component, extent, label) {
    Object.assign(this, { layout, layers: [], cells: new Map(), ways: [] });
    const isOwn = new Set(component.cells), { ranks } = layout;
    const arrows = layout.arrows.filter(({ u, v }) => u !== v && isOwn.has(u));
    for (const u of component.cells) this.cells.set(u, this.node({ u, at: layout.slots[u], layer: 2 * ranks[u], ...extent(u) }));
    const count = arrows.reduce((sum, { u, v }) => sum + 2 * Math.abs(ranks[u] - ranks[v]) - 1, 0);
    this.isCrowded = count > MOST_SLOTS;
    arrows.forEach((arrow, i) => this.route(arrow, label(arrow), i));
    this.layers = Array.from(this.layers, layer => layer ?? []);
    this.order();
    this.place();
  }
  node(node) {
    (this.layers[node.layer] ??= []).push(node);
    return Object.assign(node, { up: [], down: [] });
  }
  /** Leads an arrow, from the rank above to the one below, through slots, one of which has its label. */
  route(arrow, label, number) {
    const { ranks, slots } = this.layout, [from, to] = ranks[arrow.u] < ranks[arrow.v] ? [arrow.u, arrow.v] : [arrow.v, arrow.u];
    const first = 2 * ranks[from], last = 2 * ranks[to], way = [this.cells.get(from)];
    const labelled = first + 1 + 2 * Math.floor((last - first - 2) / 4); // near the middle
    for (let layer = first + 1; layer < last; layer++) {
      if (this.isCrowded && layer !== labelled) continue;
      const share = (layer - first) / (last - first), at = slots[from] * (1 - share) + slots[to] * share + number * 1e-4;
      const size = layer === labelled ? label : { before: 5, after: 5, front: 0, back: 0 };
      way.push(this.node({ arrow, at, layer, isLabel: layer === labelled, ...size }));
    }
    way.push(this.cells.get(to));
    way.slice(1).forEach((node, i) => {
      node.up.push(way[i]);
      way[i].down.push(node);
    });
    this.ways.push({ arrow, nodes: way, isUp: from === arrow.v });
  }
  /** Orders each layer by the means of its neighbours, up and down, and keeps what crosses least. */
  order() {
    const number = layer => layer.forEach((node, i) => { node.index = i; });
    for (const layer of this.layers) number(layer.sort((a, b) => a.at - b.at));
    let best = this.layers.map(layer => [...layer]), least = this.crossings();
    for (let sweep = 0; sweep < SWEEPS && least > 0; sweep++) {
      const isDown = sweep % 2 === 0;
      for (const layer of isDown ? this.layers : [...this.layers].reverse()) {
        for (const node of layer) {
          const others = isDown ? node.up : node.down;
          node.mean = others.length ? others.reduce((sum, other) => sum + other.index, 0) / others.length : node.index;
        }
        number(layer.sort((a, b) => a.mean - b.mean || a.index - b.index));
      }
      const crossings = this.crossings();
      if (crossings < least) [best, least] = [this.layers.map(layer => [...layer]), crossings];
    }
    this.layers = best;
    this.layers.forEach(number);
  }
  crossings() {
    let count = 0;
    for (const layer of this.layers) {
      const ends = layer.flatMap(node => node.down.map(other => [node.index, other.index])).slice(0, 400);
      for (const [a, b] of ends) for (const [c, d] of ends) if (a < c && b > d) count++;
    }
    return count;
  }
  /** Places across: each node near its neighbours, straight ways before others, and none over another. */
  place() {
    const { layers } = this;
    for (const layer of layers) {
      let at = 0;
      for (const node of layer) {
        node.across = at + node.before;
        at = node.across + node.after;
      }
    }
    const weight = (node, other) => node.u === undefined && other.u === undefined ? 8 : node.u === undefined || other.u === undefined ? 2 : 1;
    const towards = (layer, neighbours) => Layers.settle(layer, node => {
      const others = neighbours(node);
      const weights = others.map(other => weight(node, other)), sum = weights.reduce((a, b) => a + b, 0);
      return sum ? { goal: others.reduce((all, other, i) => all + other.across * weights[i], 0) / sum, weight: sum }
        : { goal: node.across, weight: 0.1 };
    });
    for (let sweep = 0; sweep < SWEEPS; sweep++) {
      for (const layer of layers) towards(layer, ({ up }) => up);
      for (const layer of [...layers].reverse()) towards(layer, ({ down }) => down);
    }
    for (const layer of layers) towards(layer, ({ up, down }) => [...up, ...down]);
    this.straighten();
  }
  /** Puts the slots of an arrow in one line, as far as what stands beside them leaves room. */
  straighten() {
    for (const { nodes } of this.ways) {
      let run = [], low = -Infinity, high = Infinity;
      for (const node of nodes.slice(1, -1)) {
        const [front, back] = this.room(node);
        if (run.length && (Math.max(low, front) > Math.min(high, back))) {
          Layers.line(run, low, high);
          [run, low, high] = [[], -Infinity, Infinity];
        }
        run.push(node);
        [low, high] = [Math.max(low, front), Math.min(high, back)];
      }
      Layers.line(run, low, high);
    }
  }
  /** Between which places a node can stand. */
  room(node) {
    const layer = this.layers[node.layer], at = layer.indexOf(node), front = layer[at - 1], back = layer[at + 1];
    return [front ? front.across + front.after + node.before : -Infinity, back ? back.across - back.before - node.after : Infinity];
  }
  static line(run, low, high) {
    if (run.length < 2) return;
    const mean = run.reduce((sum, { across }) => sum + across, 0) / run.length;
    for (const node of run) node.across = Math.max(low, Math.min(high, mean));
  }
  /** Moves the nodes of a layer as near to their goals as their order and sizes allow (the least squares). */
  static settle(layer, wish) {
    const groups = [];
    let offset = 0, last = null;
    for (const node of layer) {
      if (last) offset += last.after + node.before;
      const { goal, weight } = wish(node);
      groups.push({ nodes: [node], offsets: [offset], weight, goal: goal - offset });
      last = node;
      while (groups.length > 1 && groups.at(-1).goal < groups.at(-2).goal) { // they would overlap: they move as one
        const behind = groups.pop(), front = groups.at(-1), sum = front.weight + behind.weight;
        front.goal = (front.goal * front.weight + behind.goal * behind.weight) / sum;
        front.weight = sum;
        front.nodes.push(...behind.nodes);
        front.offsets.push(...behind.offsets);
      }
    }
    for (const { nodes, offsets, goal } of groups) nodes.forEach((node, i) => { node.across = goal + offsets[i]; });
  }
}
