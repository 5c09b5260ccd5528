import { Layout, NO_KEY } from "./layout.mjs";
import { Layers } from "./layers.mjs";
import { drawnArrows, inLines } from "./arrows.mjs";
import { folded } from "./fold.mjs";
import { Adornments, LINE_HEIGHT, textWidth } from "./adornments.mjs";
import { greatest } from "./numbers.mjs";

/* ======== Plans: places that several structures have in common, so that a variable's cell keeps its own ======== */
const ROUNDS = 4;
const MOST_LONGER = 2; // ranks
export const ROW = 12; // ranks in a row of a long chain
const LANE = 30; // between the rows of a long chain

/** A structure in layers, before it has places. */
export class Arrangement {
  constructor(whole, roles, least = new Map()) {
    const { structure, cellOf, counts } = folded(whole, roles), { arrows, excluded } = drawnArrows(structure, roles);
    Object.assign(this, { structure, roles, excluded, cellOf, counts, layout: new Layout(structure, roles, { arrows, least }) });
    this.adornments = structure.cells.map(u => new Adornments(structure, roles, u, arrows.filter(arrow => arrow.u === u && arrow.v === u)));
    const { isDown } = roles;
    const extent = u => Arrangement.turned(this.adornments[u], isDown);
    const label = ({ names }) => {
      const lines = inLines(names.join(", ")), width = Math.max(...lines.map(line => textWidth(line)));
      return isDown ? { before: 5, after: width + 10, front: LINE_HEIGHT * lines.length / 2 + 2, back: LINE_HEIGHT * lines.length / 2 + 2 }
        : { before: LINE_HEIGHT * lines.length + 6, after: 5, front: width / 2 + 3, back: width / 2 + 3 };
    };
    this.parts = this.layout.components.map((component, i) =>
      ({ ...component, key: component.key >= NO_KEY ? NO_KEY + i : component.key, layers: new Layers(this.layout, component, extent, label) }));
    for (const part of this.parts) this.measure(part);
  }
  /** Whether a component is a chain that is too long for one row. */
  static isWrapped({ layers: { layers } }, isDown) { return !isDown && layers.length > 2 * ROW + 1 && layers.every(layer => layer.length === 1); }
  /** Sizes across (before, after) and along (front, back) the direction in which arrows lead. */
  static turned({ left, right, top, bottom }, isDown) {
    return isDown ? { before: left, after: right, front: top, back: bottom } : { before: top, after: bottom, front: left, back: right };
  }
  /** How far a component reaches across from its root, and what its layers and the gaps between them take. */
  measure(part) {
    const root = part.layers.cells.get(part.root).across, nodes = part.layers.layers.flat();
    part.before = greatest(nodes.map(node => root - node.across + node.before));
    part.after = greatest(nodes.map(node => node.across - root + node.after));
    part.pitch = part.before + part.after + LANE;
    part.isWrapped = Arrangement.isWrapped(part, this.roles.isDown);
    if (part.isWrapped) part.after += part.pitch * Math.floor((part.layers.layers.length - 1) / (2 * ROW));
    part.sizes = part.layers.layers.map(layer => ({
      front: greatest(layer.map(node => node.front)), back: greatest(layer.map(node => node.back)),
      gap: 9 + Math.min(44, 0.24 * greatest(layer.flatMap(node => node.down.map(other => Math.abs(other.across - node.across))))) }));
  }
}

export class Plan {
  rows = new Map(); // by key: how far a component reaches across
  lone = new Map(); // by key: how far a cell without arrows reaches along
  loneRow = { before: 0, after: 0 };
  sizes = []; // of the layers
  constructor(structures, roles) {
    this.least = Plan.leastRanks(structures, roles);
    const arrangements = structures.map(structure => new Arrangement(structure, roles, this.least));
    const parts = arrangements.flatMap(arrangement => arrangement.parts);
    for (const part of parts.filter(({ isLone }) => !isLone)) this.widen(this.rows, part.key, part.before, part.after);
    for (const part of parts) this.add(part);
    this.arrangements = new Map(structures.length === 1 ? [[structures[0], arrangements[0]]] : []);
  }
  /** Of each variable the rank that its cell has at most in any structure, so that it has it in all; of none where
      drawings would get much longer by it. */
  static leastRanks(structures, roles) {
    const small = structures.map(structure => folded(structure, roles).structure).filter(({ size }) => size <= 40);
    let least = new Map(), last = least, natural = 0;
    if (structures.length < 2) return least;
    for (let round = 0; round < ROUNDS; round++) {
      const ranks = new Map(), layouts = small.map(structure => new Layout(structure, roles, { least }));
      const highest = greatest(layouts.flatMap(layout => layout.ranks));
      if (round === 0) natural = highest;
      if (highest > natural + MOST_LONGER) return last;
      for (const layout of layouts) layout.keys.forEach((key, u) => {
        if (layout.pointers[key]?.kind === "pointer") ranks.set(key, Math.max(ranks.get(key) ?? 0, layout.ranks[u]));
      });
      if ([...ranks].every(([key, rank]) => least.get(key) === rank)) return least;
      last = least;
      least = ranks;
    }
    return least;
  }
  widen(map, key, before, after) {
    const old = map.get(key) ?? { before: 0, after: 0 };
    map.set(key, { before: Math.max(old.before, before), after: Math.max(old.after, after) });
  }
  add(part) {
    if (part.isLone && !this.rows.has(part.key)) {
      const { front, back } = part.sizes[part.layers.cells.get(part.root).layer];
      this.widen(this.lone, part.key, front, back);
      this.loneRow = { before: Math.max(this.loneRow.before, part.before), after: Math.max(this.loneRow.after, part.after) };
      return;
    }
    this.widen(this.rows, part.key, part.before, part.after);
    part.sizes.forEach((size, layer) => {
      const old = this.sizes[layer] ?? { front: 0, back: 0, gap: 9 };
      this.sizes[layer] = { front: Math.max(old.front, size.front), back: Math.max(old.back, size.back), gap: Math.max(old.gap, size.gap) };
    });
    for (let layer = 0; layer < this.sizes.length; layer++) this.sizes[layer] ??= { front: 0, back: 0, gap: 9 };
  }
  arrangement(structure, roles) {
    const known = this.arrangements.get(structure);
    if (known) return known;
    const arrangement = new Arrangement(structure, roles, this.least);
    for (const part of arrangement.parts) this.add(part); // where it was none of the plan's
    return arrangement;
  }
  /** Where layers stand along, and rows across. */
  get places() {
    let along = 0, across = 0;
    const layers = this.sizes.map(({ front, back, gap }) => {
      const place = { front: along, at: along + front, back: along + front + back };
      along = place.back + gap;
      return place;
    });
    const rows = new Map(), inOrder = [...this.rows].sort(([a], [b]) => a - b);
    for (const [key, { before, after }] of inOrder) {
      rows.set(key, across + before);
      across += before + after + 8;
    }
    const lone = new Map(), goal = key => layers[2 * (this.least.get(key) ?? 0)]?.at ?? 0;
    let at = 0;
    for (const [key, { before, after }] of [...this.lone].sort(([a], [b]) => goal(a) - goal(b) || a - b)) {
      lone.set(key, Math.max(at + before, goal(key)));
      at = lone.get(key) + after + 10;
    }
    return { layers, rows, lone, loneRow: across + this.loneRow.before };
  }
}
