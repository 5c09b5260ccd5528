import { Kleene } from "./kleene.mjs";
import { Roles } from "./roles.mjs";

/* ======== Arrows: what is drawn between cells, and which names point to a cell ======== */

/** The arrows of a drawing: predicates between the same cells and with the same value share one. Unknown ones that a definition excludes
    are left out, and counted. */
export const drawnArrows = (structure, roles) => {
  const groups = new Map();
  let excluded = 0;
  for (const role of roles.of("field", "derived").filter(({ isShown }) => isShown)) {
    for (const { value, u, v } of structure.pairs(role.name)) {
      if (!roles.isWhole && Roles.excludes(structure, role, u, v)) {
        excluded++;
        continue;
      }
      const key = `${u} ${v} ${value}`, group = groups.get(key) ?? { u, v, isMaybe: value === Kleene.MAYBE, names: [] };
      group.names.push(role.name);
      groups.set(key, group);
    }
  }
  return { arrows: [...groups.values()], excluded };
};

/** The names of the variables at a cell, those that surely point to it and those that may. */
export const pointersAt = (structure, roles, u) => {
  const found = new Map([[Kleene.YES, []], [Kleene.MAYBE, []]]);
  for (const { name, isShown } of roles.of("pointer")) if (isShown) found.get(structure.value(name, u))?.push(structure.told(name, u));
  return [...found].map(([value, names]) => ({ isMaybe: value === Kleene.MAYBE, names })).filter(({ names }) => names.length);
};

/** What is true of a cell beside variables, in lines of some 16 letters. */
export const propertyLines = (structure, roles, u) => {
  const told = roles.of("property").filter(({ isShown }) => isShown).map(({ name }) => structure.told(name, u));
  return inLines(told.filter(text => text).join(" "));
};
export const inLines = text => text.match(/\S{16,}|\S.{0,15}(?!\S)/g) ?? [];
