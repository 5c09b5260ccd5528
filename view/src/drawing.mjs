import { Kleene } from "./kleene.mjs";
import { inLines } from "./arrows.mjs";
import { LINE_HEIGHT, placedText } from "./adornments.mjs";
import { Plan, ROW } from "./plan.mjs";
import { greatest, rounded } from "./numbers.mjs";

/* ======== Drawings: a structure as shapes: circles, arrows and texts with their places ======== */
const pair = ({ x, y }) => `${rounded(x)} ${rounded(y)}`;

/** An arrow along points: the first, then three for each curve. */
const arrowShape = (points, isMaybe) => {
  const tip = points.at(-1), before = points.slice(0, -1).findLast(({ x, y }) => Math.hypot(tip.x - x, tip.y - y) > 0.5) ?? { x: tip.x - 1, y: tip.y };
  const length = Math.hypot(tip.x - before.x, tip.y - before.y), along = { x: (tip.x - before.x) / length, y: (tip.y - before.y) / length };
  const end = { x: tip.x - along.x * 7, y: tip.y - along.y * 7 };
  const corner = side => ({ x: end.x - along.y * 3.5 * side, y: end.y + along.x * 3.5 * side });
  const way = points.slice(0, -1).concat(end), curves = [];
  for (let i = 1; i < way.length; i += 3) curves.push(`C${way.slice(i, i + 3).map(pair).join(" ")}`);
  return { points, isMaybe, way: `M${pair(way[0])}${curves.join("")}`,
    head: `M${pair(tip)}L${pair(corner(1))}L${pair(corner(-1))}Z` };
};

export class Drawing {
  cells = [];
  arrows = [];
  texts = [];
  /** `found` cells stand out, `marks` and `changed` arrows (as `u v`) too; each cell may have several colours; a plan has places that
      several drawings have in common. */
  constructor(structure, roles, { found = [], plan = new Plan([structure], roles), colours = [], marks = [], changed = new Set() } = {}) {
    const arrangement = plan.arrangement(structure, roles), { cellOf, counts } = arrangement, moved = list => list.map(u => cellOf[u]);
    Object.assign(this, { whole: structure, structure: arrangement.structure, roles, counts, found: moved(found), marks: moved(marks), colours: [] });
    this.changed = new Set([...changed].map(pair => moved(pair.split(" ")).join(" ")));
    colours.forEach((colour, u) => { this.colours[cellOf[u]] = colour; });
    Object.assign(this, { places: plan.places, layout: arrangement.layout, centres: [] });
    for (const part of arrangement.parts) this.component(part, arrangement);
    this.frame = this.framed();
    this.below(arrangement.excluded);
  }
  get width() { return this.frame.width; }
  get height() { return this.frame.height; }
  /** A point by its places along and across. */
  point(along, across) { return this.roles.isDown ? { x: across, y: along } : { x: along, y: across }; }

  component(part, { adornments }) {
    const { layers, rows, lone, loneRow } = this.places, root = part.layers.cells.get(part.root), row = rows.get(part.key);
    const isPlaced = row !== undefined, turn = layer => part.isWrapped ? Math.floor(layer / (2 * ROW)) : 0; // the row of a long chain
    const across = node => node.across - root.across + (isPlaced ? row : loneRow) + turn(node.layer) * part.pitch;
    const shifted = layer => turn(layer) ? layers[turn(layer) * 2 * ROW].front - 24 : 0;
    const band = layer => {
      const { front, at, back } = layers[layer], shift = shifted(layer);
      return { front: front - shift, at: at - shift, back: back - shift };
    };
    for (const [u, node] of part.layers.cells) {
      this.centres[u] = this.point(isPlaced ? band(node.layer).at : lone.get(part.key), across(node));
      this.cell(u, this.centres[u], adornments[u]);
    }
    const ports = this.ports(part.layers.ways);
    for (const way of part.layers.ways) {
      const isReturn = turn(way.nodes[0].layer) !== turn(way.nodes.at(-1).layer);
      if (isReturn) this.returnWay(way, across, band, adornments, part);
      else this.way(way, across, band, adornments, ports.get(way));
    }
  }
  cell(u, { x, y }, { rim, texts, arrows }) {
    const name = this.structure.individuals[u].replace(/(?<=^.{5})..+/, "…"); // at most six letters
    this.cells.push({ u, x, y, rim, name, isSummary: this.structure.isSummary(u), isFound: this.found.includes(u),
      colours: this.colours[u] ?? [], isMarked: this.marks.includes(u), isFolded: this.counts[u] > 1 });
    const moved = point => ({ x: point.x + x, y: point.y + y });
    for (const { points, isMaybe, isLoop } of arrows) this.arrow(points.map(moved), isMaybe, isLoop ? [u, u] : [u]);
    for (const { x: right, y: down, text, kind, anchor } of texts) this.texts.push(placedText(x + right, y + down, text, kind, anchor));
  }
  arrow(points, isMaybe, ends) {
    this.arrows.push({ ...arrowShape(points, isMaybe), ends, isMarked: ends.length === 2 && this.changed.has(ends.join(" ")) });
  }
  /** Where ways leave a cell and come to it, across: by the place of what comes next on them. */
  ports(ways) {
    const sides = new Map(), ports = new Map();
    const add = (u, side, way, next) => {
      const key = `${u} ${side}`;
      sides.set(key, [...sides.get(key) ?? [], { way, next }]);
    };
    for (const way of ways) {
      add(way.nodes[0].u, "back", way, way.nodes[1]);
      add(way.nodes.at(-1).u, "front", way, way.nodes.at(-2));
    }
    for (const [key, list] of sides) {
      list.sort((a, b) => a.next.across - b.next.across);
      const step = Math.min(11, 26 / Math.max(1, list.length - 1));
      list.forEach(({ way }, i) => ports.set(way, { ...ports.get(way), [key.split(" ")[1]]: (i - (list.length - 1) / 2) * step }));
    }
    return ports;
  }
  /** An arrow between two cells: straight where it passes a layer, curved between them. */
  way({ arrow, nodes, isUp }, across, band, adornments, { front, back }) {
    const points = [], first = nodes[0], last = nodes.at(-1);
    const rim = (u, offset) => Math.sqrt(adornments[u].rim ** 2 - offset ** 2);
    const line = to => points.push(points.at(-1), to, to);
    const curve = (along, place) => {
      const from = this.end, middle = (from.along + along) / 2;
      points.push(this.point(middle, from.across), this.point(middle, place), this.point(along, place));
      this.end = { along, across: place };
    };
    const straight = along => {
      line(this.point(along, this.end.across));
      this.end = { along, across: this.end.across };
    };
    this.end = { along: band(first.layer).at + rim(first.u, back) + (isUp ? 1 : 0), across: across(first) + back };
    points.push(this.point(this.end.along, this.end.across));
    straight(band(first.layer).back);
    for (const node of nodes.slice(1, -1)) {
      curve(band(node.layer).front, across(node));
      straight(band(node.layer).back);
      if (node.isLabel) this.label(arrow, band(node.layer).at, across(node));
    }
    curve(band(last.layer).front, across(last) + front);
    straight(band(last.layer).at - rim(last.u, front) - (isUp ? 0 : 1));
    this.arrow(isUp ? points.reverse() : points, arrow.isMaybe, [arrow.u, arrow.v]);
  }
  /** From the end of a row of a long chain to the beginning of the next, between the rows. */
  returnWay({ arrow, nodes: [first, , last], isUp }, across, band, adornments, part) {
    const right = band(first.layer).back + 12, left = band(last.layer).front - 14, lane = across(last) - part.before - 12;
    const start = { x: band(first.layer).at + adornments[first.u].rim, y: across(first) };
    const end = { x: band(last.layer).at - adornments[last.u].rim - 1, y: across(last) };
    const corners = [{ x: right, y: start.y }, { x: right, y: lane }, { x: left, y: lane }, { x: left, y: end.y }, end], points = [start];
    for (const corner of corners) points.push(points.at(-1), corner, corner);
    this.arrow(isUp ? points.reverse() : points, arrow.isMaybe, [arrow.u, arrow.v]);
    this.label(arrow, (left + right) / 2, lane);
  }
  label({ names }, along, across) {
    const lines = inLines(names.join(", ")), { x, y } = this.point(along, across);
    lines.forEach((line, i) => this.texts.push(this.roles.isDown
      ? placedText(x + 4, y + 4 + LINE_HEIGHT * (i - (lines.length - 1) / 2), line, "field", "start")
      : placedText(x, y - 5 - LINE_HEIGHT * (lines.length - 1 - i), line, "field", "middle")));
  }
  /** The frame: drawings of one plan begin at one place, and each ends where it has no more. */
  framed() {
    const points = [...this.texts.map(({ right, bottom }) => ({ x: right, y: bottom })), ...this.cells.map(({ x, y, rim }) => ({ x: x + rim, y: y + rim })),
      ...this.arrows.flatMap(arrow => arrow.points)];
    const most = name => greatest(points.map(point => point[name]), 40);
    return { x: -8, y: -8, width: Math.ceil(most("x") + 16), height: Math.ceil(most("y") + 16) };
  }
  /** Nullary predicates, variables that point nowhere, and how many arrows are left out, in lines below. */
  below(excluded) {
    const { structure, roles } = this;
    const flags = roles.of("flag").filter(role => role.isShown).map(({ name }) => structure.told(name));
    const absent = roles.of("pointer").map(({ name }) => name)
      .filter(name => !structure.cells.some(u => structure.value(name, u)));
    const lines = [structure.size ? "" : "no individuals", flags.filter(name => name).join("  "),
      absent.length ? `at no cell: ${absent.join(", ")}` : "",
      this.counts.some(count => count > 1) ? `folded: ${this.counts.filter(count => count > 1).join(" and ")} equal cells of a chain` : "",
      excluded ? `left out, since a definition excludes them: ${excluded} unknown arrows` : ""];
    for (const line of lines.filter(line => line)) {
      const { x, y, width, height } = this.frame, placed = placedText(x + 8, y + height + 8, line, "label", "start");
      this.texts.push(placed);
      this.frame = { x, y, width: Math.max(width, Math.ceil(placed.right - x + 8)), height: height + 17 };
    }
  }
}
