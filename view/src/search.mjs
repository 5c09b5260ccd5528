import { Kleene } from "./kleene.mjs";
import { Reach } from "./reach.mjs";

/* ======== Searches: cells with values, and ways from cell to cell; `no` where there is none; `,` parts terms ======== */
export const Search = {
  /** Takes a structure and its node to the cells that are found in it, or to null; an `Error` where the query says nothing. */
  compile(query, roles) {
    const texts = query.split(/,(?![^[\]]*\])/).map(text => text.trim()).filter(text => text);
    const terms = texts.map(text => /^at\s/.test(text) ? Search.node(text.slice(2).trim()) : Search.term(text, roles));
    return (structure, node) => {
      const found = terms.map(term => term(structure, node));
      return found.includes(null) ? null : found.flat();
    };
  },
  node(name) { return (structure, node) => node === name ? [] : null; },
  /** A way: values at a cell, where it leads from there, values at the next, and so on. */
  term(text, roles) {
    const isNone = /^no\s/.test(text), stops = [{ tests: [], pointers: [] }];
    for (const word of text.replace(/^no\s+/, "").split(/\s+(?:and\s+)?/)) {
      const { name, arity, wanted, isPlain } = Search.word(word, roles, isNone), last = stops.at(-1);
      if (arity === 2) {
        last.leads = Search.leads(name, wanted, last.pointers, roles);
        last.isReach = name === "reaches";
        stops.push({ tests: [], pointers: [] });
      } else {
        last.tests.push((structure, u) => wanted.includes(structure.value(name, arity === 0 ? 0 : u)));
        if (isPlain) last.pointers.push(name);
      }
    }
    return structure => {
      const found = Search.way(structure, stops);
      return isNone ? found.length ? null : [] : found.length ? found : null;
    };
  },
  leads(name, wanted, pointers, roles) {
    if (name !== "reaches") return (structure, u, v) => wanted.includes(structure.value(name, u, v));
    const reach = new Reach(roles);
    if (!reach.knows(pointers)) throw new Error("no predicate of this report says what is reached: t[n] or r[n,x], of a field n and a variable x");
    return (structure, u, v) => wanted.includes(reach.value(structure, u, v, pointers));
  },
  /** The cells of all ways through these stops, without the last where nothing is asked of it but that something leads there. */
  way(structure, stops) {
    const all = [...Array(structure.size || 1).keys()]; // where there is no cell flags are looked for at 0
    const held = stops.map(({ tests }) => all.filter(u => tests.every(test => test(structure, u))));
    for (let i = stops.length - 2; i >= 0; i--)
      held[i] = structure.size ? held[i].filter(u => held[i + 1].some(v => stops[i].leads(structure, u, v))) : [];
    for (let i = 1; i < stops.length; i++) held[i] = held[i].filter(v => held[i - 1].some(u => stops[i - 1].leads(structure, u, v)));
    const isOpen = stops.length > 1 && !stops.at(-1).tests.length && !stops.at(-2).isReach;
    return held[0].length ? [...new Set((isOpen ? held.slice(0, -1) : held).flat())] : [];
  },
  /** A predicate, and the values that are looked for. */
  word(word, roles, may) {
    const [, not, name, half] = /^(!?)([^!?]+)(\??)$/.exec(word) ?? [];
    const arity = name === "sm" ? 1 : roles.predicates.get(name)?.arity ?? (name === "reaches" ? 2 : undefined);
    if (!name) throw new Error(`\`${word}\` is no predicate; write as in: x y, no t, y?`);
    if (arity === undefined) throw new Error(`no predicate \`${name}\` in this report`);
    const wanted = not ? [Kleene.NO] : half || name === "sm" ? [Kleene.MAYBE] : may ? [Kleene.YES, Kleene.MAYBE] : [Kleene.YES];
    return { name, arity, wanted, isPlain: !not && !half };
  },
};
