import { Kleene } from "./kleene.mjs";
import { Line } from "./lines.mjs";
import { Structure } from "./structures.mjs";

/* ======== Two reports side by side: which structures of a node stand in one of them alone ======== */

/** A text that structures have in common where they differ in the order of their cells alone, as far as unary predicates tell them apart. */
export const canonicalText = (structure, predicates) => {
  const unary = [...predicates.filter(({ arity }) => arity === 1).map(({ name }) => name), "sm"];
  const sign = u => unary.map(name => structure.value(name, u)).join("");
  const loops = u => predicates.filter(({ arity }) => arity === 2).map(({ name }) => structure.value(name, u, u)).join("");
  const order = structure.cells.map(u => ({ u, key: sign(u) + loops(u) })).sort((a, b) => (a.key < b.key ? -1 : a.key > b.key ? 1 : a.u - b.u));
  const moved = new Structure(), place = [];
  order.forEach(({ u }, i) => { place[u] = i; });
  moved.individuals = order.map((_, i) => `i${i}`);
  for (const [name, { arity, values }] of structure.tables) {
    if (arity === 0) moved.set(name, 0, 0, 0, values[0]);
    else if (arity === 1) structure.cells.forEach(u => moved.set(name, 1, place[u], 0, values[u]));
    else for (const { u, v, value } of structure.pairs(name)) moved.set(name, 2, place[u], place[v], value);
  }
  return Line.write(moved, predicates);
};

/** The structures of a node in two reports as pairs of places, -1 where one has none, what stands in one alone first. */
export const pairsOf = (first, second, node, predicates) => {
  const texts = listing => {
    const own = listing.nodes.get(node) ?? { first: 0, count: 0 }, found = new Map();
    for (let place = own.first; place < own.first + own.count; place++) {
      const text = canonicalText(listing.structure(place), predicates);
      found.set(text, [...found.get(text) ?? [], place]);
    }
    return found;
  };
  const [left, right] = [texts(first), texts(second)], alone = [[], []], both = [];
  for (const [text, places] of left) places.forEach((place, i) => {
    const other = right.get(text)?.[i];
    other === undefined ? alone[0].push(place) : both.push([place, other]);
  });
  for (const [text, places] of right) alone[1].push(...places.slice(left.get(text)?.length ?? 0));
  const rows = Array.from({ length: Math.max(alone[0].length, alone[1].length) }, (_, i) => [alone[0][i] ?? -1, alone[1][i] ?? -1]);
  return { alone, both, rows };
};

/** The messages that one report has and the other hasn't, or has with another value, in words. */
export const messagesAlone = (first, second) => {
  const text = ({ edge, number, value, text }) => `message ${edge} ${number} ${Kleene.text(value)} “${text}”`;
  const of = listing => new Set(listing.messages.map(text)), [left, right] = [of(first), of(second)];
  return [[...left].filter(line => !right.has(line)), [...right].filter(line => !left.has(line))];
};
