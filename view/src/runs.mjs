import { Kleene } from "./kleene.mjs";
import { Valuation } from "./formulas.mjs";

/* ======== Runs: which structure comes from which, as the maps of a report tell ======== */
export class Runs {
  before = new Map(); // by place: the steps that lead there
  after = new Map(); // by place: the steps that lead on
  starts = new Map(); // by place: the initial structures that belong there
  /** `edges` are those of the report's program. */
  constructor(report, edges) {
    Object.assign(this, { report, edges });
    const first = report.nodes.values().next().value;
    for (const { isInitial, item: [number, from, result], to, of } of report.maps) {
      if (isInitial) this.put(this.starts, report.place(edges[0]?.source ?? first?.name, to), { initial: number, of });
      else this.step(edges[number], number, from, result, to, of);
    }
    this.walk();
  }
  get hasMaps() { return this.starts.size > 0; }
  put(map, key, value) {
    if (!map.has(key)) map.set(key, []);
    map.get(key).push(value);
  }
  step(edge, number, from, result, to, of) {
    if (!edge) return;
    const step = { edge: number, result, of, from: this.report.place(edge.source, from), to: this.report.place(edge.target, to) };
    if (step.from < 0 || step.to < 0) return;
    this.put(this.before, step.to, step);
    this.put(this.after, step.from, step);
  }
  /** Finds the shortest way to each place, from any initial structure. */
  walk() {
    this.reached = new Map([...this.starts.keys()].map(place => [place, { length: 0, step: null }]));
    const open = [...this.reached.keys()];
    for (const place of open) { // grows
      for (const step of this.after.get(place) ?? []) {
        if (this.reached.has(step.to)) continue;
        this.reached.set(step.to, { length: this.reached.get(place).length + 1, step });
        open.push(step.to);
      }
    }
  }
  /** A shortest chain to a place: its steps, from the first on; null where no map leads there. */
  chain(place) {
    if (!this.reached.has(place)) return null;
    const steps = [];
    for (let at = place; this.reached.get(at).step; at = steps[0].from) steps.unshift(this.reached.get(at).step);
    return steps;
  }
  /** The structure at the edge's source that raises a message and to which the fewest steps lead, and the formula's value there. */
  raising(program, { edge, number }) {
    const { source } = this.edges[edge] ?? {}, node = this.report.nodes.get(source), formula = node && program.effect(this.edges[edge]).messages[number];
    if (!formula) return null;
    let best = null;
    for (let place = node.first; place < node.first + node.count; place++) {
      const length = this.reached.get(place)?.length ?? Infinity, value = new Valuation(this.report.structure(place)).value(formula);
      const isBetter = !best || value === Kleene.YES && best.value !== Kleene.YES || value === best.value && length < best.length;
      if (value !== Kleene.NO && isBetter) best = { place, value, length };
    }
    return best;
  }
}
