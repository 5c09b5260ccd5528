import { Kleene } from "./kleene.mjs";
import { Structure } from "./structures.mjs";
import { drawnArrows } from "./arrows.mjs";

/* ======== Folding: equal cells of a long chain as one ======== */
const LEAST = 5; // cells in the middle of a chain that are worth to be folded

/** A structure in which runs of equal cells, each with one known arrow from the last and to the next, are one cell; for each new cell
    how many it stands for, and for each old one the new one. */
export const folded = (structure, roles) => {
  const runs = roles.isFolded && structure.size > LEAST + 1 ? chainsOf(structure, roles) : [];
  const cellOf = structure.cells.map(u => u);
  if (!runs.length) return { structure, cellOf, counts: structure.cells.map(() => 1) };
  const gone = new Set(runs.flatMap(run => run.slice(1))), kept = structure.cells.filter(u => !gone.has(u));
  kept.forEach((u, i) => { cellOf[u] = i; });
  for (const run of runs) for (const u of run) cellOf[u] = cellOf[run[0]];
  const counts = kept.map(() => 0);
  for (const u of structure.cells) counts[cellOf[u]]++;
  const small = new Structure();
  small.individuals = kept.map((u, i) => counts[i] > 1 ? `${counts[i]} ×` : structure.individuals[u]);
  for (const [name, { arity, values }] of structure.tables) copyTable(structure, small, name, arity, values, cellOf);
  return { structure: small, cellOf, counts };
};

const copyTable = (structure, small, name, arity, values, cellOf) => {
  const join = (u, v, value) => {
    if (value && (arity < 2 || cellOf[u] !== cellOf[v] || u === v)) small.set(name, arity, u === undefined ? 0 : cellOf[u], v === undefined ? 0 : cellOf[v], value);
  };
  if (arity === 0) small.set(name, 0, 0, 0, values[0]);
  else if (arity === 1) structure.cells.forEach(u => join(u, undefined, values[u]));
  else for (const { u, v, value } of structure.pairs(name)) join(u, v, value);
};

/** Runs of cells in the middle of chains: no summaries, the same predicates true of all, and no further arrows. */
const chainsOf = (structure, roles) => {
  const { arrows } = drawnArrows(structure, roles), out = structure.cells.map(() => []), into = structure.cells.map(() => []);
  for (const arrow of arrows) {
    out[arrow.u].push(arrow);
    into[arrow.v].push(arrow);
  }
  const unary = roles.all.filter(({ arity }) => arity === 1), text = u => unary.map(({ name }) => structure.value(name, u)).join("");
  const isPlain = u => out[u].length === 1 && into[u].length === 1 && !structure.isSummary(u) && out[u][0].v !== u
    && !out[u][0].isMaybe && !into[u][0].isMaybe && out[u][0].names.join() === into[u][0].names.join()
    && !roles.of("pointer").some(({ name }) => structure.value(name, u) !== Kleene.NO);
  const seen = new Set(), runs = [];
  for (const first of structure.cells) {
    const before = into[first][0]?.u;
    if (seen.has(first) || !isPlain(first) || before !== undefined && isPlain(before) && text(before) === text(first)) continue;
    const run = [];
    for (let u = first; isPlain(u) && text(u) === text(first) && !seen.has(u); u = out[u][0].v) {
      run.push(u);
      seen.add(u);
    }
    if (run.length >= LEAST) runs.push(run);
  }
  return runs;
};
