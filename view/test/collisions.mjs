// Counts in a drawing what lies on something else: labels on labels, labels on cells, arrows through cells that aren't their ends, and
// arrows through labels. Points of curves are taken every three points or less.
const curvePoints = points => {
  const found = [points[0]];
  for (let i = 1; i + 2 < points.length; i += 3) {
    const [a, b, c, d] = [points[i - 1], points[i], points[i + 1], points[i + 2]];
    const length = Math.hypot(b.x - a.x, b.y - a.y) + Math.hypot(c.x - b.x, c.y - b.y) + Math.hypot(d.x - c.x, d.y - c.y);
    const steps = Math.max(1, Math.ceil(length / 3));
    for (let k = 1; k <= steps; k++) {
      const t = k / steps, s = 1 - t;
      const mix = name => s ** 3 * a[name] + 3 * s * s * t * b[name] + 3 * s * t * t * c[name] + t ** 3 * d[name];
      found.push({ x: mix("x"), y: mix("y") });
    }
  }
  return found;
};
const overlap = (a, b) => a.left < b.right - 1 && b.left < a.right - 1 && a.top < b.bottom - 1 && b.top < a.bottom - 1;
const touches = (box, { x, y, rim }) =>
  Math.hypot(x - Math.max(box.left, Math.min(x, box.right)), y - Math.max(box.top, Math.min(y, box.bottom))) < rim - 0.5;
const isInside = (box, { x, y }) => x > box.left + 1 && x < box.right - 1 && y > box.top + 1 && y < box.bottom - 1;

export const collisions = ({ cells, arrows, texts }) => {
  const found = { labels: 0, labelsOnCells: 0, arrowsOnCells: 0, arrowsOnLabels: 0, cells: 0 };
  texts.forEach((text, i) => {
    found.labels += texts.slice(i + 1).filter(other => overlap(text, other)).length;
    found.labelsOnCells += cells.filter(cell => touches(text, cell)).length;
  });
  cells.forEach((cell, i) => {
    found.cells += cells.slice(i + 1).filter(other => Math.hypot(cell.x - other.x, cell.y - other.y) < cell.rim + other.rim).length;
  });
  for (const { points, ends } of arrows) {
    const along = curvePoints(points);
    found.arrowsOnCells += cells.filter(cell => !ends.includes(cell.u)
      && along.some(({ x, y }) => Math.hypot(x - cell.x, y - cell.y) < cell.rim - 0.5)).length;
    found.arrowsOnLabels += texts.filter(text => along.some(point => isInside(text, point))).length;
  }
  return found;
};
export const sum = found => Object.values(found).reduce((a, b) => a + b, 0);
