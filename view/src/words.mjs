import { Kleene } from "./kleene.mjs";

/* ======== Words: a structure told to those who don't see it ======== */
const listed = words => words.length < 2 ? words.join("") : `${words.slice(0, -1).join(", ")} and ${words.at(-1)}`;
const counted = (number, one) => `${number} ${one}${number === 1 ? "" : "s"}`;

/** What stands in a structure, in sentences; predicates that aren't shown are left out. */
export const structureWords = (structure, roles) => {
  const of = kind => roles.of(kind).filter(role => role.isShown), name = u => structure.individuals[u];
  const summaries = structure.cells.filter(u => structure.isSummary(u)), sentences = [];
  sentences.push(structure.size ? `${counted(structure.size, "cell")}${summaries.length
    ? `, of which ${listed(summaries.map(name))} ${summaries.length > 1 ? "are summaries" : "is a summary"}` : ""}.` : "No cells.");
  for (const role of of("pointer")) sentences.push(pointerWords(structure, role.name, name));
  for (const role of of("field")) sentences.push(...arrowWords(structure, role.name, name));
  for (const u of structure.cells) sentences.push(...propertyWords(structure, of("property"), u, name(u)));
  for (const role of of("flag")) {
    const value = structure.value(role.name);
    if (value) sentences.push(`${role.name} ${value === Kleene.YES ? "is true" : "may be true"}.`);
  }
  return sentences.join(" ");
};

const pointerWords = (structure, pointer, name) => {
  const at = value => structure.cells.filter(u => structure.value(pointer, u) === value).map(name);
  const [yes, maybe] = [at(Kleene.YES), at(Kleene.MAYBE)];
  if (yes.length) return `${pointer} points to ${listed(yes)}.`;
  return maybe.length ? `${pointer} may point to ${listed(maybe)}.` : `${pointer} points nowhere.`;
};
const arrowWords = (structure, field, name) => structure.cells.flatMap(u => {
  const at = value => structure.cells.filter(v => structure.value(field, u, v) === value).map(name);
  const [yes, maybe] = [at(Kleene.YES), at(Kleene.MAYBE)];
  const sentences = yes.length ? [`From ${name(u)} ${field} leads to ${listed(yes)}.`] : [];
  return maybe.length ? [...sentences, `From ${name(u)} ${field} may lead to ${listed(maybe)}.`] : sentences;
});
const propertyWords = (structure, properties, u, name) => {
  const at = value => properties.filter(role => structure.value(role.name, u) === value).map(role => role.name);
  const [yes, maybe] = [at(Kleene.YES), at(Kleene.MAYBE)];
  const sentences = yes.length ? [`Of ${name} ${listed(yes)} ${yes.length > 1 ? "are" : "is"} true.`] : [];
  return maybe.length ? [...sentences, `Of ${name} ${listed(maybe)} may be true.`] : sentences;
};
