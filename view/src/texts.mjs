import { Kleene } from "./kleene.mjs";

/* ======== A structure as a text for other programs: Graphviz and TikZ ======== */
const quoted = text => `"${text.replace(/["\\]/g, "\\$&")}"`;
const letters = text => text.replace(/[\\{}$&#^_%~]/g, mark =>
  ({ "\\": "\\textbackslash{}", "^": "\\textasciicircum{}", "~": "\\textasciitilde{}" })[mark] ?? `\\${mark}`);
const shown = (roles, ...kinds) => roles.of(...kinds).filter(role => role.isShown);
const told = (structure, roles, u) => roles.map(({ name }) => structure.told(name, u)).filter(text => text);
/** The flags of a structure, and the variables that point nowhere. */
const below = (structure, roles) => {
  const flags = shown(roles, "flag").map(({ name }) => structure.told(name)).filter(text => text);
  const absent = roles.of("pointer").filter(({ name }) => !structure.cells.some(u => structure.value(name, u)));
  return [...flags, ...absent.length ? [`at no cell: ${absent.map(({ name }) => name).join(", ")}`] : []].join("  ");
};

export const dotText = (structure, roles, title) => {
  const lines = structure.cells.map(u => {
    const text = [structure.individuals[u], ...told(structure, shown(roles, "property"), u)].join("\\n");
    return `c${u} [label="${text}"${structure.isSummary(u) ? ", peripheries=2" : ""}];`;
  });
  shown(roles, "pointer").forEach(({ name }, i) => {
    const cells = structure.cells.filter(u => structure.value(name, u));
    if (cells.length) lines.push(`p${i} [label=${quoted(name)}, shape=plaintext];`);
    for (const u of cells) lines.push(`p${i} -> c${u}${structure.value(name, u) === Kleene.MAYBE ? " [style=dashed]" : ""};`);
  });
  for (const { name } of shown(roles, "field", "derived"))
    for (const { u, v, value } of structure.pairs(name))
      lines.push(`c${u} -> c${v} [label=${quoted(name)}${value === Kleene.MAYBE ? ", style=dashed" : ""}];`);
  const label = [title, below(structure, roles)].filter(text => text).join("\\n");
  return `digraph ${quoted(title)} {\n  ${[`label="${label}";`, roles.isDown ? "" : "rankdir=LR;", "node [shape=circle];",
    ...lines].filter(line => line).join("\n  ")}\n}\n`;
};

/** A picture of TikZ, with the places and ways of the drawing. */
export const tikzText = (drawing, title) => {
  const at = ({ x, y }) => `(${(x / 40).toFixed(2)},${(-y / 40).toFixed(2)})`;
  const cells = drawing.cells.map(cell => `\\node[draw, circle, ${cell.isSummary ? "double, " : ""}minimum size=9mm] `
    + `(c${cell.u}) at ${at(cell)} {${letters(cell.name)}};`);
  const arrows = drawing.arrows.map(({ isMaybe, points }) => {
    let way = at(points[0]);
    for (let i = 1; i < points.length; i += 3) {
      const [one, other, to] = points.slice(i, i + 3).map(at), from = at(points[i - 1]);
      if (one === from && other === to) way += to === from ? "" : ` -- ${to}`;
      else way += ` .. controls ${one} and ${other} .. ${to}`;
    }
    return `\\draw[->${isMaybe ? ", dashed" : ""}] ${way};`;
  });
  const anchors = { start: "west", middle: "center", end: "east" };
  const texts = drawing.texts.map(({ x, y, text, anchor, kind }) => `\\node[anchor=${anchors[anchor]}, font=\\small`
    + `${kind === "field" ? "\\itshape" : kind === "pointer" ? "\\bfseries" : ""}] at ${at({ x, y: y - 4 })} {${letters(text)}};`);
  return `% ${title}; in the preamble: \\usepackage{tikz}\n\\begin{tikzpicture}[>=latex]\n  `
    + [...cells, ...arrows, ...texts].join("\n  ") + "\n\\end{tikzpicture}\n";
};
