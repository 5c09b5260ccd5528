import { pointersAt, propertyLines, inLines } from "./arrows.mjs";

/* ======== Adornments: what stands at one cell: its variables, its loops, what is true of it ======== */
export const RADIUS = 20;
export const LINE_HEIGHT = 13;
const NARROW = new Set("iljtfrI.,:;|'!()[] "), WIDE = new Set("mwMW@%");

/** How wide a text of 11 points is at most, in the fonts that browsers take. */
export const textWidth = (text, isBold = false) => {
  let width = 0;
  for (const letter of text) width += NARROW.has(letter) ? 4.6 : WIDE.has(letter) ? 10.8 : letter >= "A" && letter <= "Z" ? 8.2 : 7;
  return isBold ? width * 1.13 : width;
};
/** A text with its place and the box that it fills; `anchor` tells which end of it is at `x`. */
export const placedText = (x, y, text, kind, anchor) => {
  const width = textWidth(text, kind === "pointer"), left = anchor === "start" ? x : anchor === "end" ? x - width : x - width / 2;
  return { x, y, text, kind, anchor, left, right: left + width, top: y - 10, bottom: y + 3 };
};

/** All that stands at one cell, with places from its middle; the sides on which arrows come and go stay free. */
export class Adornments {
  constructor(structure, roles, u, loops) {
    Object.assign(this, { rim: RADIUS + (structure.isSummary(u) ? 4 : 0), isDown: roles.isDown, texts: [], arrows: [] });
    const pointers = pointersAt(structure, roles, u), lines = propertyLines(structure, roles, u);
    this.isDown ? this.besidePointers(pointers) : this.abovePointers(pointers);
    loops.slice(0, 2).forEach((loop, i) => this.loop(loop, i));
    this.properties(lines, loops.length);
    const boxes = [{ left: -this.rim, right: this.rim, top: -this.rim, bottom: this.rim }, ...this.texts, ...this.arrows.map(Adornments.boxOf)];
    const most = (name, pick) => boxes.map(box => box[name]).reduce(pick);
    const min = (a, b) => Math.min(a, b), max = (a, b) => Math.max(a, b);
    const free = this.rim + 10; // for the head of an arrow
    boxes.push(this.isDown ? { left: 0, right: 0, top: -free, bottom: free } : { left: -free, right: free, top: 0, bottom: 0 });
    Object.assign(this, { left: -most("left", min) + 3, right: most("right", max) + 3, top: -most("top", min) + 3, bottom: most("bottom", max) + 3 });
  }
  static boxOf({ points }) {
    const xs = points.map(({ x }) => x), ys = points.map(({ y }) => y);
    return { left: Math.min(...xs), right: Math.max(...xs), top: Math.min(...ys), bottom: Math.max(...ys) };
  }
  text(x, y, text, kind, anchor) {
    const placed = placedText(x, y, text, kind, anchor);
    this.texts.push(placed);
    return placed;
  }
  /** Variables above a cell in a list: what surely points to it, and on its left what may. */
  abovePointers(pointers) {
    let right = 2;
    for (const { names, isMaybe } of pointers) {
      const text = names.join(", "), isShort = right === 2 && textWidth(text, true) < 26;
      const placed = this.text(isShort ? -12 : right, -this.rim - 16, text, "pointer", isShort ? "middle" : "end");
      const start = right === 2 ? { x: Math.min(-4, placed.right - 10), y: placed.bottom + 1 } : { x: placed.right - 3, y: placed.bottom + 1 };
      this.pointer(start, isMaybe);
      right = placed.left - 8;
    }
  }
  /** Variables on the left of a cell in a tree. */
  besidePointers(pointers) {
    pointers.forEach(({ names, isMaybe }, i) => {
      const y = pointers.length > 1 ? i * 20 - 6 : 4;
      const placed = this.text(-this.rim - 20, y, names.join(", "), "pointer", "end");
      this.pointer({ x: placed.right + 3, y: y - 4 }, isMaybe);
    });
  }
  pointer(start, isMaybe) {
    const length = Math.hypot(start.x, start.y), tip = { x: start.x / length * (this.rim + 1), y: start.y / length * (this.rim + 1) };
    this.arrows.push({ points: [start, start, tip, tip], isMaybe });
  }
  /** A loop, the second of two on the other side. */
  loop({ names, isMaybe }, number) {
    const middle = (this.isDown ? [16, -24] : [62, -62])[number], reach = this.rim + 34;
    const at = (angle, distance) => {
      const turn = angle * Math.PI / 180;
      return { x: Math.cos(turn) * distance, y: -Math.sin(turn) * distance };
    };
    const points = [at(middle - 19, this.rim), at(middle - 30, reach), at(middle + 30, reach), at(middle + 19, this.rim + 1)];
    if (number) points.reverse();
    this.arrows.push({ points, isMaybe, isLoop: true });
    const apex = at(middle, this.rim * 0.25 + reach * 0.75), lines = inLines(names.join(", "));
    lines.forEach((line, i) => {
      if (this.isDown) this.text(apex.x + 5, apex.y + 4 + LINE_HEIGHT * (number ? i : i - lines.length + 1), line, "field", "start");
      else this.text(Math.max(5, apex.x - textWidth(line) / 2), number ? apex.y + 13 + LINE_HEIGHT * i : apex.y - 6 - LINE_HEIGHT * (lines.length - 1 - i),
        line, "field", "start");
    });
  }
  properties(lines, loops) {
    const below = Math.max(0, ...this.texts.map(({ bottom }) => bottom)) + 10;
    const first = this.isDown ? Math.max(16, loops ? below : 0) : loops > 1 ? Math.max(this.rim + 14, below + 3) : this.rim + 14;
    lines.forEach((line, i) => this.isDown ? this.text(this.rim + 6, first + LINE_HEIGHT * i, line, "label", "start")
      : this.text(0, first + LINE_HEIGHT * i, line, "label", "middle"));
  }
}
