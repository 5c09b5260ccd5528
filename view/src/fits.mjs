/* ======== Whether a program is that of a report, or of a chain ======== */

const lineOf = (listing, at) => {
  let line = 1;
  for (let i = 0; i < at; i++) if (listing.bytes[i] === 10) line++;
  return line;
};

/** The first thing in which a report differs from what a program would have, as a sentence, or "". */
export const firstDifference = (program, report) =>
  differentNode(program, report) || differentPredicate(program, report.census) || differentMessage(program, report);

const differentNode = (program, report) => {
  const expected = program.nodes, found = [...report.nodes.values()];
  for (let i = 0; i < Math.max(expected.length, found.length); i++) {
    if (expected[i] === found[i]?.name) continue;
    const { file, line } = program.edges.find(({ source, target }) => [source, target].includes(expected[i])) ?? {};
    const told = found[i] ? `node ${found[i].name} (line ${lineOf(report, found[i].at)})` : "no further node";
    return expected[i] ? `the report has ${told} where the program has node ${expected[i]} (${file}, line ${line})`
      : `the report has ${told}, and the program no further node`;
  }
  return "";
};

const plural = arity => `${arity} argument${arity === 1 ? "" : "s"}`;
/** The first predicate that has another number of arguments than one of that name that is known, as a sentence, or "". */
export const differentArity = (known, census) => {
  const found = [...census.facts.values()].find(({ name, arity }) => (known.get(name)?.arity ?? arity) !== arity);
  return found ? `${found.name} has ${plural(found.arity)} here, and ${plural(known.get(found.name).arity)} in what is shown` : "";
};

/** With files that weren't given some predicates aren't known. */
export const differentPredicate = (program, census) => {
  for (const { name, arity } of census.facts.values()) {
    const declared = program.predicates.get(name);
    if (!declared && program.knowsPredicates) return `the program doesn't declare ${name}`;
    if (declared && declared.arity !== arity)
      return `${name} has ${plural(arity)} here, and ${plural(declared.arity)} in the program`;
  }
  return "";
};

const differentMessage = (program, report) => {
  for (const { edge, number, text, at } of report.messages) {
    const found = program.edges[edge], line = lineOf(report, at);
    if (!found) return `the report has a message at edge ${edge} (line ${line}), and the program has no such edge`;
    if (!program.knowsMessages || found.messages[number] === text) continue;
    const own = found.messages.map(message => `“${message}”`).join(", ") || "none";
    return `edge ${edge} (${found.file}, line ${found.line}) has the messages ${own}, and the report `
      + `“${text}” there (line ${line})`;
  }
  return "";
};

/** The first edge of an explanation that isn't the program's, as a sentence, or "". */
export const differentEdge = (program, edges) => {
  for (const { number, source, target, call, line } of edges) {
    const own = program.edges[number];
    if (!own) return `edge ${number} is none of the program`;
    const isSame = own.source === source && own.target === target && own.call === call;
    if (!isSame) return `edge ${number} is ${source} ${call} ${target}, and ${own.source} ${own.call} ${own.target} `
      + `in the program (${own.file}, line ${own.line})`;
    if (line !== own.line) return `edge ${number} stands in line ${line}, and in line ${own.line} of the program`;
  }
  return "";
};
