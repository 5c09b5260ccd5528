import { svg } from "./dom.mjs";
import { rounded } from "./numbers.mjs";

/* ======== SVG of shapes: elements of the page, or the text of a file that stands alone ======== */
const COLOURS = { ink: "#1b1f24", soft: "#57606a", fill: "#eef4fb", paper: "#fff", found: "#fff0a8", warn: "#a40e26", link: "#0550ae" };

export const DRAWING_STYLE = `
  .drawing { font: 12px sans-serif; }
  .drawing text { fill: var(--ink); stroke: var(--paper); stroke-width: 3px; paint-order: stroke; stroke-linejoin: round; }
  .drawing .cell { fill: var(--fill); stroke: var(--ink); stroke-width: 1.5px; }
  .drawing .found .cell { fill: var(--found); }
  .drawing .coloured .cell { fill: none; }
  .drawing .coloured .name { fill: #1b1f24; }
  .drawing .marked .cell { stroke: var(--link); stroke-width: 3px; }
  .drawing .folded .cell { stroke-dasharray: 2 3; }
  .drawing .name { text-anchor: middle; stroke: none; font-size: 11px; fill: var(--soft); }
  .drawing .label { font-size: 11px; }
  .drawing .pointer { font-weight: 700; }
  .drawing .arrow { fill: none; stroke: var(--ink); stroke-width: 1.4px; }
  .drawing .maybe { stroke-dasharray: 5 4; }
  .drawing .head { fill: var(--ink); stroke: none; }
  .drawing .arrow.marked { stroke: var(--link); stroke-width: 2.6px; }
  .drawing .head.marked { fill: var(--link); }
  .drawing .field { font-style: italic; font-size: 11px; }`;

/** A style in which each colour stands itself, since few programs beside browsers know variables. */
const plain = style => style.replace(/var\(--(\w+)\)/g, (all, name) => COLOURS[name]);

/** Shapes as trees: a tag, attributes, and children, which are trees or texts. */
const circle = (cell, radius) => ["circle", { class: "cell", cx: rounded(cell.x), cy: rounded(cell.y), r: radius }];
/** Sectors of a circle, one for each colour. */
const sectors = ({ x, y, rim, colours }) => colours.map((colour, i) => {
  if (colours.length === 1) return ["circle", { cx: rounded(x), cy: rounded(y), r: rim - 1, fill: colour }];
  const at = turn => `${rounded(x + Math.sin(turn) * (rim - 1))} ${rounded(y - Math.cos(turn) * (rim - 1))}`;
  const from = 2 * Math.PI * i / colours.length, to = 2 * Math.PI * (i + 1) / colours.length;
  return ["path", { d: `M${rounded(x)} ${rounded(y)}L${at(from)}A${rim - 1} ${rim - 1} 0 ${to - from > Math.PI ? 1 : 0} 1 ${at(to)}Z`, fill: colour }];
});
const classOf = cell => [cell.isFound ? "found" : "", cell.colours.length ? "coloured" : "", cell.isMarked ? "marked" : "", cell.isFolded ? "folded" : ""]
  .filter(name => name).join(" ");
const cellTree = cell => ["g", classOf(cell) ? { class: classOf(cell) } : {}, ...sectors(cell), circle(cell, cell.rim),
  ...cell.isSummary ? [circle(cell, cell.rim - 4)] : [],
  ["text", { class: "name", x: rounded(cell.x), y: rounded(cell.y + 4) }, cell.name]];
const arrowTrees = ({ isMaybe, way, head, isMarked }) => {
  const mark = isMarked ? " marked" : "";
  return [["path", { class: `arrow${isMaybe ? " maybe" : ""}${mark}`, d: way }], ["path", { class: `head${mark}`, d: head }]];
};
const textTree = ({ x, y, kind, anchor, text }) => ["text", { class: kind, x: rounded(x), y: rounded(y), "text-anchor": anchor }, text];
export const drawingTrees = drawing =>
  [...drawing.arrows.flatMap(arrowTrees), ...drawing.cells.map(cellTree), ...drawing.texts.map(textTree)];

export const treeElement = ([tag, attributes, ...children]) =>
  svg(tag, attributes, ...children.map(child => typeof child === "string" ? child : treeElement(child)));
const escaped = text => text.replace(/[&<>"]/g, mark => `&#${mark.charCodeAt(0)};`);
const written = ([tag, attributes, ...children]) => {
  const told = Object.entries(attributes).map(([name, value]) => ` ${name}="${escaped(String(value))}"`).join("");
  return `<${tag}${told}>${children.map(child => typeof child === "string" ? escaped(child) : written(child)).join("")}</${tag}>`;
};
const viewBox = ({ x, y, width, height }) => `${x} ${y} ${width} ${height}`;

/** A drawing on the page; `words` say it to those who don't see it. */
export const drawingElement = (drawing, title, words) =>
  treeElement(["svg", { class: "drawing", role: "img", viewBox: viewBox(drawing.frame), preserveAspectRatio: "xMinYMin meet",
    "aria-label": `${title}: ${words}` }, ...drawingTrees(drawing)]);

/** The text of a file: parts stand one below the other, each with a title. */
export const svgFile = (parts, style = DRAWING_STYLE, kind = "drawing") => {
  const gap = parts.length > 1 ? 24 : 0, width = Math.max(1, ...parts.map(({ frame }) => frame.width));
  let top = 0;
  const groups = parts.map(({ frame, title, trees }) => {
    const group = ["g", { transform: `translate(${-frame.x} ${top + gap - frame.y})` }, ...trees];
    const head = gap ? [["text", { class: "pointer", x: 4, y: top + 16 }, title]] : [];
    top += frame.height + gap;
    return [...head, group];
  });
  return `<?xml version="1.0" encoding="UTF-8"?>\n` + written(["svg", { xmlns: "http://www.w3.org/2000/svg",
    width, height: Math.max(1, top), viewBox: `0 0 ${width} ${Math.max(1, top)}`, class: kind },
    ["title", {}, parts.map(({ title }) => title).join(", ")], ["style", {}, plain(style)],
    ["rect", { x: 0, y: 0, width, height: Math.max(1, top), fill: COLOURS.paper }], ...groups.flat()]) + "\n";
};

/** One structure as a file. */
export const structureFile = (drawing, title) => svgFile([{ frame: drawing.frame, title, trees: drawingTrees(drawing) }]);
