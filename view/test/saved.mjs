// Writes pictures of a report, as the page saves them, into files: for .ci/page.
import { readFileSync, writeFileSync } from "node:fs";
import { Report } from "../src/reports.mjs";
import { Roles } from "../src/roles.mjs";
import { Drawing } from "../src/drawing.mjs";
import { drawingTrees, structureFile, svgFile } from "../src/svg.mjs";
import { Program } from "../src/programs.mjs";
import { GraphDrawing, GRAPH_STYLE } from "../src/graph.mjs";
import { tikzText } from "../src/texts.mjs";

const last = async path => {
  const report = await Report.read(new Uint8Array(readFileSync(path))), structures = report.places.map((_, place) => report.structure(place));
  return new Drawing(structures.at(-1), new Roles([report.census], null, structures));
};
/** The last structure. */
export const save = async (path, to) => writeFileSync(to, structureFile(await last(path), "one"));
/** All structures of its last node, as one file. */
export const saveAll = async (path, to) => {
  const report = await Report.read(new Uint8Array(readFileSync(path))), { first, count } = [...report.nodes.values()].at(-1);
  const structures = Array.from({ length: count }, (_, i) => report.structure(first + i)), roles = new Roles([report.census], null, structures);
  const parts = structures.map(structure => new Drawing(structure, roles)).map((drawing, i) =>
    ({ frame: drawing.frame, title: report.title(first + i), trees: drawingTrees(drawing) }));
  writeFileSync(to, svgFile(parts));
};
/** The graph of a program without includes. */
export const saveGraph = (path, to) => {
  const { nodes, edges } = Program.read({ path, text: readFileSync(path, "utf8") }), drawing = new GraphDrawing(nodes, edges, () => 1, new Map());
  writeFileSync(to, svgFile([{ frame: drawing.frame, title: "Control graph", trees: drawing.trees() }], GRAPH_STYLE, "graph"));
};

/** A text for LaTeX with the TikZ pictures of these reports, and the pictures in these files. */
export const saveLatex = async (paths, pictures, to) => {
  const drawn = [];
  for (const path of paths) drawn.push(tikzText(await last(path), path));
  const included = pictures.map(picture => `\\includegraphics[width=\\linewidth]{${picture}}`);
  writeFileSync(to, ["\\documentclass{article}", "\\usepackage{tikz}", "\\begin{document}", ...drawn, ...included, "\\end{document}", ""].join("\n\n"));
};
