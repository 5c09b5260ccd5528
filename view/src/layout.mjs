import { Kleene } from "./kleene.mjs";
import { Roles } from "./roles.mjs";
import { drawnArrows } from "./arrows.mjs";

/* ======== Layout: an order of the cells in which known arrows lead forwards, ranks, and what hangs together ======== */
export const NO_KEY = 2000; // the key of a cell to which no variable points

export class Layout {
  /** `least` has, by variable, the rank that the cell gets at least to which it points first. */
  constructor(structure, roles, { arrows = drawnArrows(structure, roles).arrows, least = new Map() } = {}) {
    Object.assign(this, { structure, roles, arrows, least, size: structure.size });
    this.pointers = roles.pointers;
    this.keys = this.firstPointers();
    this.next = structure.cells.map(u => this.successors(u));
    this.sort();
    this.rank();
    this.slots = this.spread();
    this.components = this.gathered();
  }
  /** Of each cell the place of the first variable that points to it, or may: lists keep their places. */
  firstPointers() {
    const { structure, pointers } = this, sure = new Array(this.size), maybe = new Array(this.size);
    let left = this.size;
    for (let i = 0; i < pointers.length && left; i++) {
      const values = structure.tables.get(pointers[i].name)?.values ?? [];
      for (let u = 0; u < values.length; u++) {
        if (values[u] === Kleene.YES && sure[u] === undefined) {
          sure[u] = i;
          left--;
        } else if (values[u] === Kleene.MAYBE) maybe[u] ??= i;
      }
    }
    return structure.cells.map(u => sure[u] ?? (maybe[u] === undefined ? NO_KEY : NO_KEY / 2 + maybe[u]));
  }
  byKey(cells) { return cells.sort((a, b) => this.keys[a] - this.keys[b] || a - b); }
  /** To which cells forward fields may lead, known ones first; a closure that excludes it decides. */
  successors(u) {
    const { structure, roles } = this, found = [];
    for (const v of structure.cells) {
      const fields = roles.forward
        .filter(role => structure.value(role.name, u, v) && !Roles.excludes(structure, role, u, v));
      const isLedBack = roles.fields
        .some(role => role.isBackward && structure.value(role.name, v, u) === Kleene.YES);
      if (u === v || !fields.length && !isLedBack) continue;
      const isBack = roles.closures.some(({ name }) => structure.value(name, v, u) && !structure.value(name, u, v));
      const known = fields.filter(({ name }) => structure.value(name, u, v) === Kleene.YES);
      const sides = (known.length ? known : fields).map(role => roles.forward.indexOf(role));
      const side = sides.reduce((a, b) => a + b, 0) / (sides.length || 1);
      if (!isBack) found.push({ v, isKnown: known.length > 0 || isLedBack, side });
    }
    return found.sort((a, b) => b.isKnown - a.isKnown || this.keys[a.v] - this.keys[b.v] || a.v - b.v);
  }
  /** Sorts cells so that known arrows lead forwards, and unknown ones where they can. */
  sort() {
    const left = new Set(this.byKey(this.structure.cells));
    // of each cell the arrows from those left: known, unknown; then 0 where one leads here from the others
    const ranking = this.structure.cells.map(() => [0, 0, 1]);
    const count = (u, by) => {
      for (const { v, isKnown } of this.next[u]) ranking[v][isKnown ? 0 : 1] += by;
    };
    const isLess = ([a, b, c], [d, e, f]) => (a - d || b - e || c - f) < 0;
    left.forEach(u => count(u, 1));
    this.sorted = [];
    this.places = new Array(this.size);
    while (left.size) {
      let best = -1;
      for (const u of left) if (best < 0 || isLess(ranking[u], ranking[best])) best = u;
      left.delete(best);
      this.places[best] = this.sorted.push(best) - 1;
      count(best, -1);
      for (const { v } of this.next[best]) ranking[v][2] = 0;
    }
    this.next = this.next.map((next, u) => next.filter(({ v }) => this.places[u] < this.places[v]));
  }
  /** Each cell stands behind all that come before it and to which an arrow joins it. */
  rank() {
    const behind = this.structure.cells.map(u => new Set(this.next[u].map(({ v }) => v)));
    for (const { u, v } of this.arrows)
      if (u !== v) this.places[u] < this.places[v] ? behind[u].add(v) : behind[v].add(u);
    this.ranks = new Array(this.size).fill(0);
    for (const u of this.sorted) {
      this.ranks[u] = Math.max(this.ranks[u], this.least.get(this.keys[u]) ?? 0);
      for (const v of behind[u]) this.ranks[v] = Math.max(this.ranks[v], this.ranks[u] + 1);
    }
    this.behind = behind;
  }
  /** A first order across: each leaf of a forest has a slot, and a parent stands in the middle of its children. */
  spread() {
    const parents = new Array(this.size).fill(null), children = this.structure.cells.map(() => []);
    for (const u of this.sorted) {
      for (const { v, isKnown, side } of this.next[u]) {
        const other = parents[v], isNearer = !other || this.ranks[u] > this.ranks[other.u];
        if (!other || (isKnown === other.isKnown ? isNearer : isKnown)) parents[v] = { u, isKnown, side };
      }
    }
    parents.forEach((parent, v) => parent && children[parent.u].push(v));
    for (const list of children)
      list.sort((a, b) => parents[a].side - parents[b].side || this.keys[a] - this.keys[b] || a - b);
    const slots = new Array(this.size).fill(0), { isDown, forward } = this.roles;
    let free = 0;
    const put = u => {
      const own = children[u];
      const side = own.length === 1 && isDown ? Math.sign(parents[own[0]].side - (forward.length - 1) / 2) : 0;
      if (side > 0) free += 0.5;
      own.forEach(put);
      slots[u] = own.length ? (slots[own[0]] + slots[own.at(-1)]) / 2 - side / 2 : free;
      free = Math.max(free, slots[u] + 1);
    };
    this.byKey(this.structure.cells.filter(u => !parents[u])).forEach(put);
    return slots;
  }
  /** The cells that hang together, each component by its first variable. */
  gathered() {
    const seen = new Set(), beside = this.structure.cells.map(() => []), components = [];
    this.behind.forEach((others, u) => others.forEach(v => {
      beside[u].push(v);
      beside[v].push(u);
    }));
    for (const first of this.byKey(this.structure.cells)) {
      if (seen.has(first)) continue;
      const cells = [first];
      seen.add(first);
      for (const u of cells) for (const v of beside[u]) if (!seen.has(v)) cells.push(v) && seen.add(v);
      components.push({ key: this.keys[first], root: first, cells, isLone: cells.length === 1 });
    }
    return components;
  }
}
