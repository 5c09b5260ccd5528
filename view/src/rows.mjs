import { html } from "./dom.mjs";

/* ======== Rows: as many lines of one height as one likes, made as they come into view ======== */
export class Rows {
  /** `make(i)` makes the element of row i; the scroller is the nearest element that scrolls. */
  constructor(scroller, height, make) {
    Object.assign(this, { scroller, height, make, count: 0, shown: new Map(), sheet: html("div", { className: "rows" }) });
    scroller.addEventListener("scroll", () => this.render());
    new ResizeObserver(() => this.render()).observe(scroller);
  }
  show(count) {
    this.count = count;
    this.sheet.style.height = `${count * this.height}px`;
    this.refresh();
  }
  /** Makes anew what is in view. */
  refresh() {
    for (const element of this.shown.values()) element.remove();
    this.shown.clear();
    this.render();
  }
  render() {
    if (!this.sheet.isConnected) return;
    const top = this.scroller.scrollTop - (this.sheet.offsetTop - this.scroller.offsetTop), view = this.scroller.clientHeight || 400;
    const from = Math.max(0, Math.floor(top / this.height) - 10), to = Math.min(this.count, Math.ceil((top + view) / this.height) + 10);
    for (const [i, element] of this.shown) {
      if (i >= from && i < to) continue;
      element.remove();
      this.shown.delete(i);
    }
    for (let i = from; i < to; i++) {
      if (this.shown.has(i)) continue;
      const element = this.make(i);
      element.style.top = `${i * this.height}px`;
      this.shown.set(i, element);
      this.sheet.append(element);
    }
  }
  reveal(i) {
    const top = this.sheet.offsetTop - this.scroller.offsetTop + i * this.height, { scrollTop, clientHeight } = this.scroller;
    if (top < scrollTop || top + this.height > scrollTop + clientHeight) this.scroller.scrollTop = top - clientHeight / 3;
    this.render();
  }
}
