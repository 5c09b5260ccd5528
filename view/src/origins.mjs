import { Kleene } from "./kleene.mjs";
import { Structure } from "./structures.mjs";
import { Valuation } from "./formulas.mjs";

/* ======== Origins: from which cells those of the next structure can come ======== */
const LARGEST_TRACED = 24; // cells

/** For each cell of `to` the cells of `from` from which it can come along an edge, and `from.size` for a new one. A cell with one
    origin alone surely comes from it: the values of each heap are those of the structures, or these have 1/2. Null where it isn't known. */
export const origins = (program, edge, from, to) => {
  if (!program?.knowsPredicates || from.size > LARGEST_TRACED || to.size > LARGEST_TRACED) return null;
  const effect = program.effect(edge), before = effect.isNew ? withNew(from) : from, values = valuesAfter(program, effect, before);
  const candidates = to.cells.map(w => before.cells.filter(u => isKept(effect, before, u)
    && values.every(({ arity, value, name }) => arity !== 1 || Kleene.agree(value(u), to.value(name, w)))));
  const binary = values.filter(({ arity }) => arity === 2);
  const fits = (u, w, v, x) => binary.every(({ name, value }) =>
    Kleene.agree(value(u, v), to.value(name, w, x)) && Kleene.agree(value(v, u), to.value(name, x, w)));
  return narrowed(candidates, fits, u => !before.isSummary(u));
};

/* Origins in the stages of a step. Cells keep their order but for blur. */
export const sameCells = (from, to) => from.size === to.size ? to.cells.map(u => [u]) : null;
/** A choice of focus: a cell more stands behind the summary of which it is a part; of several that it may be each. */
export const focusOrigins = (from, to) => {
  if (to.size !== from.size + 1) return sameCells(from, to);
  const fits = fitsBy(from, to, Kleene.agree), split = u => to.cells.map(w => w > u ? w - 1 : w);
  const ways = from.cells.filter(u => from.isSummary(u)).map(split).filter(way => to.cells.every(w => to.cells.every(x => fits(way[w], w, way[x], x))));
  return ways.length ? to.cells.map(w => [...new Set(ways.map(way => way[w]))]) : null;
};
/** An update: a cell more is a new one, the last, and of fewer each may be one of those that can stand at its place. */
export const updateOrigins = (from, to) => to.cells.map(w => from.size < to.size ? [Math.min(w, from.size)]
  : from.cells.slice(w, w + 1 + from.size - to.size).filter(u => from.isSummary(u) === to.isSummary(w)));
/** Blur: the cells that become one, whose values are those of it or are unknown there. */
export const blurOrigins = (from, to) => {
  const fits = fitsBy(from, to, (value, blurred) => blurred === Kleene.MAYBE || value === blurred);
  return narrowed(to.cells.map(w => from.cells.filter(u => fits(u, w, u, w))), fits, () => true);
};
/** Whether all predicates allow that u becomes w and v becomes x. */
const fitsBy = (from, to, allows) => {
  const names = [...new Set([...from.tables.keys(), ...to.tables.keys()])], arity = name => (from.tables.get(name) ?? to.tables.get(name)).arity;
  const unary = names.filter(name => arity(name) === 1), binary = names.filter(name => arity(name) === 2);
  const fitsOne = (u, w) => unary.every(name => allows(from.value(name, u), to.value(name, w)));
  return (u, w, v, x) => fitsOne(u, w) && fitsOne(v, x)
    && binary.every(name => allows(from.value(name, u, v), to.value(name, w, x)) && allows(from.value(name, v, u), to.value(name, x, w)));
};

/** A structure with one further cell, of which nothing holds but that it is new. */
const withNew = structure => {
  const larger = new Structure(), { size } = structure;
  larger.individuals = [...structure.individuals, "new"];
  for (const [name, { arity, values }] of structure.tables) {
    if (arity === 0) larger.set(name, 0, 0, 0, values[0]);
    else if (arity === 1) structure.cells.forEach(u => larger.set(name, 1, u, 0, values[u]));
    else for (const { u, v, value } of structure.pairs(name)) larger.set(name, 2, u, v, value);
  }
  larger.set("isNew", 1, size, 0, Kleene.YES);
  return larger;
};
const isKept = (effect, structure, u) => {
  if (!effect.retain) return true;
  const free = [...freeVariables(effect.retain)].filter(variable => !freeVariables(effect.precondition).has(variable));
  const at = free.length ? { [free[0]]: u } : {};
  return overPicks(effect, structure, picks => new Valuation(structure).value(effect.retain, { ...picks, ...at })) !== Kleene.NO;
};

/** The predicates of which it is known what they are behind the step, each with its value of cells of the structure before. */
const valuesAfter = (program, effect, structure) => {
  const updated = new Map(effect.updates.map(update => [update.name, update])), known = [];
  const isTouched = (name, seen = new Set()) => updated.has(name) || (program.predicates.get(name)?.rests ?? []).some(other =>
    !seen.has(other) && isTouched(other, seen.add(other)));
  for (const { name, arity, isDefined } of program.predicates.values()) {
    const update = updated.get(name);
    if (update) known.push({ name, arity, value: updatedValue(effect, update, structure) });
    else if (!isDefined || !effect.isNew && !effect.retain && !isTouched(name)) known.push({ name, arity, value: (u, v) => structure.value(name, u, v) });
  }
  return known;
};
const updatedValue = (effect, { variables, formula }, structure) => {
  const values = new Map(), valuation = new Valuation(structure);
  return (u, v) => {
    const key = `${u} ${v}`, at = Object.fromEntries(variables.map((variable, i) => [variable, i ? v : u]));
    if (!values.has(key)) values.set(key, overPicks(effect, structure, picks => valuation.value(formula, { ...picks, ...at })));
    return values.get(key);
  };
};
/** A value for any choice of picked cells: 1/2 where choices differ. */
const overPicks = (effect, structure, value) => {
  const picked = effect.precondition ? [...freeVariables(effect.precondition)] : [], found = new Set();
  const pick = (left, at) => {
    if (left.length) return structure.cells.forEach(u => pick(left.slice(1), { ...at, [left[0]]: u }));
    if (!picked.length || new Valuation(structure).value(effect.precondition, at) !== Kleene.NO) found.add(value(at));
  };
  pick(picked, {});
  return found.size === 1 ? [...found][0] : Kleene.MAYBE;
};
const freeVariables = (formula, bound = new Set()) => {
  if (!formula) return new Set();
  const inner = new Set([...bound, ...formula.variables ?? []]), parts = [formula.of, formula.left, formula.right, formula.test, formula.yes, formula.no];
  const own = [...formula.args ?? [], ...formula.ends ?? []].filter(variable => !bound.has(variable));
  return new Set([...own, ...parts.filter(part => part).flatMap(part => [...freeVariables(part, inner)])]);
};

/** Takes out what fits with no origin of another cell; and what goes to one cell alone is the origin of no other. Null where nothing is left. */
const narrowed = (candidates, fits, goesToOne) => {
  for (let isChanged = true; isChanged;) {
    isChanged = false;
    candidates.forEach((list, w) => {
      const left = list.filter(u => fits(u, w, u, w) && candidates.every((others, x) => x === w || others.some(v => fits(u, w, v, x)))
        && !candidates.some((others, x) => x !== w && others.length === 1 && others[0] === u && goesToOne(u)));
      if (left.length === list.length) return;
      candidates[w] = left;
      isChanged = true;
    });
  }
  return candidates.some(list => !list.length) ? null : candidates;
};

/** What changed between two structures whose cells come from one another, as marks and as words. */
export const changes = (from, to, cellsFrom, roles) => {
  const marks = new Set(), arrows = new Set(), words = [];
  const origin = w => cellsFrom[w].length === 1 ? cellsFrom[w][0] : -1;
  for (const { name, kind } of roles.of("pointer", "property").filter(({ isShown }) => isShown)) {
    const changed = to.cells.filter(w => origin(w) >= 0 && from.value(name, origin(w)) !== to.value(name, w));
    changed.forEach(w => marks.add(w));
    if (kind === "pointer" && changed.length) words.push(moved(from, to, name));
  }
  for (const { name } of roles.of("field", "derived").filter(({ isShown }) => isShown))
    for (const w of to.cells) for (const x of to.cells)
      if (origin(w) >= 0 && origin(x) >= 0 && from.value(name, origin(w), origin(x)) !== to.value(name, w, x)) {
        arrows.add(`${w} ${x}`);
        words.push(`${name} from ${to.individuals[w]} to ${to.individuals[x]} was ${Kleene.text(from.value(name, origin(w), origin(x)))} and is ${Kleene.text(to.value(name, w, x))}`);
      }
  for (const w of to.cells.filter(w => cellsFrom[w].includes(from.size) && cellsFrom[w].length === 1)) words.push(`${to.individuals[w]} is new`);
  for (const w of to.cells.filter(w => origin(w) >= 0 && origin(w) < from.size)) {
    const others = to.cells.filter(x => x < w && origin(x) === origin(w));
    if (others.length) words.push(`${to.individuals[w]} is a part of what was ${from.individuals[origin(w)]}`);
    else if (from.isSummary(origin(w)) && !to.isSummary(w)) words.push(`${to.individuals[w]} is one cell`);
  }
  return { marks: [...marks], arrows, words };
};
const moved = (from, to, name) => {
  const at = structure => structure.cells.filter(u => structure.value(name, u)).map(u => structure.individuals[u] + (structure.value(name, u) === Kleene.MAYBE ? "?" : ""));
  return `${name}: ${at(from).join(", ") || "nowhere"} → ${at(to).join(", ") || "nowhere"}`;
};
