import { byId, html, button } from "./dom.mjs";
import { Line } from "./lines.mjs";
import { drawingElement, drawingTrees, structureFile, svgFile } from "./svg.mjs";
import { dotText, tikzText } from "./texts.mjs";
import { structureWords } from "./words.mjs";
import { reachWords } from "./reach.mjs";

/* ======== One structure, large; saving ======== */

/** Gives a text or a picture to be saved under a name. */
export const save = (content, name, type) => {
  const address = URL.createObjectURL(content instanceof Blob ? content : new Blob([content], { type }));
  html("a", { href: address, download: name }).click();
  setTimeout(() => URL.revokeObjectURL(address), 1000);
};

/** A picture of an SVG file's text, twice as large. */
export const pngOf = async text => {
  const image = new Image(), address = URL.createObjectURL(new Blob([text], { type: "image/svg+xml" }));
  await new Promise((resolve, reject) => {
    image.onload = resolve;
    image.onerror = () => reject(new Error("the browser can't draw this as PNG"));
    image.src = address;
  });
  const canvas = html("canvas", { width: image.width * 2, height: image.height * 2 });
  canvas.getContext("2d").drawImage(image, 0, 0, canvas.width, canvas.height);
  URL.revokeObjectURL(address);
  return new Promise(resolve => canvas.toBlob(resolve, "image/png"));
};

const fileName = (title, ending) => `${title.replace(/\W+/g, "-")}.${ending}`;

export const Large = {
  zoom: 0, // of the drawing; 0 where it is as large as there is room
  show(spot, page) {
    const dialog = byId("large"), drawing = page.draw(spot), title = spot.listing.title(spot.place), { roles } = page;
    const words = structureWords(drawing.whole, roles), element = drawingElement(drawing, title, words), box = html("div", { className: "zoomed", tabIndex: 0 }, element);
    Object.assign(this, { spot, page, drawing, element, box });
    dialog.replaceChildren(
      html("div", { className: "bar" }, html("h2", { className: "apart", textContent: title, "aria-live": "polite" }),
        button("−", () => this.scale(1 / 1.25), { "aria-label": "Smaller" }), button("+", () => this.scale(1.25), { "aria-label": "Larger" }),
        button("Fit", () => this.fit()), button("◀", () => this.step(-1), { "aria-label": "The structure before" }),
        button("▶", () => this.step(1), { "aria-label": "The next structure" }), ...this.exports(drawing, title, page),
        button("Print", () => print()), button("Close", () => dialog.close())),
      box, html("p", { className: "form", textContent: Line.write(drawing.whole, roles.all) || "no individuals" }), html("p", { textContent: words }),
      html("p", { className: "reach", textContent: reachWords(drawing.whole, roles) }),
      ...spot.listing === page.report ? page.neighbours(spot.place) : [],
      html("details", {}, html("summary", { textContent: "All values" }), html("pre", { textContent: drawing.whole.write() })));
    box.addEventListener("wheel", event => {
      if (!event.ctrlKey && !event.metaKey) return;
      event.preventDefault();
      this.scale(event.deltaY < 0 ? 1.1 : 1 / 1.1);
    }, { passive: false });
    if (!dialog.open) dialog.showModal();
    document.body.classList.add("one");
    this.zoom ? this.scale(1) : this.fit();
  },
  scale(by) {
    this.zoom = Math.min(8, Math.max(0.1, (this.zoom || this.element.clientWidth / this.drawing.width || 1) * by));
    Object.assign(this.element.style, { width: `${this.drawing.width * this.zoom}px`, height: `${this.drawing.height * this.zoom}px` });
  },
  fit() {
    this.zoom = 0;
    const share = Math.min(2, this.box.clientWidth / this.drawing.width, innerHeight * 0.6 / this.drawing.height);
    Object.assign(this.element.style, { width: `${this.drawing.width * share}px`, height: `${this.drawing.height * share}px` });
  },
  /** Goes to another structure of the listing. */
  step(by) {
    const { spots } = this.page, at = spots.findIndex(({ listing, place }) => listing === this.spot.listing && place === this.spot.place);
    if (spots[at + by]) this.show(spots[at + by], this.page);
  },
  key(key) {
    const acts = { "+": () => this.scale(1.25), "-": () => this.scale(1 / 1.25), 0: () => this.fit(), ArrowLeft: () => this.step(-1), ArrowRight: () => this.step(1) };
    acts[key]?.();
    return key in acts;
  },
  exports(drawing, title, page) {
    const svg = () => structureFile(drawing, title);
    const png = async () => {
      try {
        save(await pngOf(svg()), fileName(title, "png"), "image/png");
      } catch (fault) {
        page.say(fault.message, true);
      }
    };
    return [button("SVG", () => save(svg(), fileName(title, "svg"), "image/svg+xml")), button("PNG", png),
      button("DOT", () => save(dotText(drawing.whole, page.roles, title), fileName(title, "dot"), "text/plain")),
      button("TikZ", () => save(tikzText(drawing, title), fileName(title, "tex"), "text/plain"))];
  },
  /** All structures that are listed, one below the other, as one file. */
  saveListed(page) {
    const parts = page.spots.map(spot => {
      const drawing = page.draw(spot);
      return { frame: drawing.frame, title: spot.listing.title(spot.place), trees: drawingTrees(drawing) };
    });
    save(svgFile(parts), fileName(byId("title").textContent, "svg"), "image/svg+xml");
  },
};
