/* ======== Galleries: as many cards of one size as one likes, made as they come into view ======== */
export class Gallery {
  static TALLEST = 8e6; // browsers have no taller elements at any zoom; what is taller is scrolled faster
  /** `card(i)` makes the element of item i. */
  constructor(scroller, sheet, card) {
    Object.assign(this, { scroller, sheet, card, cards: new Map(), count: 0, tall: 0 });
    scroller.addEventListener("scroll", () => this.render());
    new ResizeObserver(() => this.measure()).observe(scroller);
  }
  /** Shows `count` items; cards are at least `width` wide, or stand in a given number of columns. */
  show(count, width, height, fixed = 0) {
    Object.assign(this, { count, least: width, height, fixed, columns: 0, first: 0 });
    this.scroller.scrollTop = 0;
    this.measure();
  }
  measure() {
    if (this.isHeld) return;
    const room = this.scroller.clientWidth - 8, first = this.first;
    const columns = this.fixed || Math.max(1, Math.min(this.count, Math.floor(room / (this.least + 8)))) || 1;
    if (this.room === room && this.columns === columns) return this.render();
    const width = Math.min(Math.floor(room / columns) - 8, Math.max(700, this.least));
    const tall = Math.ceil(this.count / columns) * (this.height + 8) + 8;
    Object.assign(this, { room, columns, width, tall });
    this.sheet.style.height = `${Math.min(tall, Gallery.TALLEST)}px`;
    for (const element of this.cards.values()) element.remove();
    this.cards.clear();
    first ? this.reveal(first) : this.render();
  }
  /** How far cards are scrolled for each pixel by which the sheet is. */
  get pace() {
    const view = this.scroller.clientHeight;
    return this.tall > Gallery.TALLEST ? (this.tall - view) / (Gallery.TALLEST - view) : 1;
  }
  render() {
    if (this.isHeld) return;
    const { scrollTop, clientHeight } = this.scroller, top = scrollTop * this.pace, row = this.height + 8;
    if (!this.tall || !clientHeight) return;
    const from = Math.max(0, Math.floor((top - 300) / row) * this.columns);
    const to = Math.min(this.count, Math.ceil((top + clientHeight + 300) / row) * this.columns);
    this.first = Math.min(Math.floor(top / row) * this.columns, this.count - 1);
    for (const [i, element] of this.cards)
      if ((i < from || i >= to) && !element.contains(document.activeElement)) {
        element.remove();
        this.cards.delete(i);
      }
    for (let i = from; i < to; i++) if (!this.cards.has(i)) this.add(i);
    for (const [i, element] of this.cards) this.put(element, i, top - scrollTop);
  }
  /** Makes the first `most` cards, whether in view or not, and leaves them alone until they are released. */
  hold(most) {
    this.isHeld = true;
    for (let i = 0; i < Math.min(this.count, most); i++) if (!this.cards.has(i)) this.add(i);
  }
  release() {
    this.isHeld = false;
    this.measure();
  }
  add(i) {
    const element = this.card(i), after = Math.min(...[...this.cards.keys()].filter(j => j > i));
    element.setAttribute("aria-posinset", i + 1);
    element.setAttribute("aria-setsize", this.count);
    this.cards.set(i, element);
    this.sheet.insertBefore(element, this.cards.get(after) ?? null); // in order, for readers of screens
  }
  put({ style }, i, shift) {
    style.left = `${8 + i % this.columns * (this.width + 8)}px`;
    style.top = `${8 + Math.floor(i / this.columns) * (this.height + 8) - shift}px`;
    style.width = `${this.width}px`;
    style.height = `${this.height}px`;
  }
  reveal(i) {
    this.scroller.scrollTop = Math.floor(i / this.columns) * (this.height + 8) / this.pace;
    this.render();
  }
}
