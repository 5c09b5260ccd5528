import { bytesOf } from "../src/tokens.mjs";
import { Report } from "../src/reports.mjs";
import { Drawing } from "../src/drawing.mjs";
import { structureFile } from "../src/svg.mjs";
import { pngOf } from "../src/large.mjs";
import { Page } from "../src/page.mjs";

/* ======== Port: the page of tests, which frames this copy, calls these by messages ======== */
const filesOf = files => {
  const transfer = new DataTransfer();
  for (const { name, text } of files) transfer.items.add(new File([text], name));
  return transfer;
};
/** What was asked for is done, and drawn: where processors are shared with others a frame may take its time. */
const settled = async () => {
  await new Promise(resolve => setTimeout(resolve, 120));
  const drawn = new Promise(resolve => requestAnimationFrame(() => requestAnimationFrame(resolve)));
  await Promise.race([drawn, new Promise(resolve => setTimeout(resolve, 2000))]);
};
/** The share of dark points in a picture. */
const darkness = async blob => {
  const bitmap = await createImageBitmap(blob), canvas = document.createElement("canvas");
  Object.assign(canvas, { width: bitmap.width, height: bitmap.height });
  canvas.getContext("2d").drawImage(bitmap, 0, 0);
  const { data } = canvas.getContext("2d").getImageData(0, 0, canvas.width, canvas.height);
  let dark = 0;
  for (let i = 0; i < data.length; i += 4) if (data[i + 3] > 128 && data[i] + data[i + 1] + data[i + 2] < 300) dark++;
  return dark / (data.length / 4);
};
const onPaper = () => {
  const boxes = selector => [...document.querySelectorAll(selector)].map(element => element.getBoundingClientRect()), cards = boxes(".card");
  const meet = (a, b) => a.left < b.right && b.left < a.right && a.top < b.bottom && b.top < a.bottom;
  const isCut = ({ scrollHeight, clientHeight, scrollWidth, clientWidth }) => scrollHeight > clientHeight + 1 || scrollWidth > clientWidth + 1;
  return { columns: new Set(cards.map(({ left }) => Math.round(left))).size, cards: cards.length,
    overlaps: cards.filter((box, i) => cards.slice(i + 1).some(other => meet(box, other))).length, cut: [...document.querySelectorAll(".card")].filter(isCut).length,
    frames: boxes(".strip li").filter(({ right, height }) => right <= innerWidth && height > 0).length,
    seen: ["#film", "#title", ".graph", "#messages", "header", "#text", ".card button", "#listing"].filter(selector => boxes(selector).some(({ height }) => height > 0)) };
};
const port = {
  /** Files by the page's own chooser. */
  choose: async (files, hash = "") => {
    history.replaceState(null, "", location.pathname + location.search + hash);
    const input = document.getElementById("files");
    input.files = filesOf(files).files;
    input.dispatchEvent(new Event("change"));
    await settled();
  },
  drop: async files => {
    dispatchEvent(new DragEvent("drop", { dataTransfer: filesOf(files), cancelable: true }));
    await settled();
  },
  paste: async text => {
    const clipboardData = new DataTransfer();
    clipboardData.setData("text/plain", text);
    document.body.dispatchEvent(Object.assign(new Event("paste", { bubbles: true }), { clipboardData }));
    await settled();
  },
  forget: () => {
    history.replaceState(null, "", location.pathname + location.search);
    Page.given = new Page.given.constructor();
    Page.gather();
    Page.refresh();
    Page.say("");
  },
  search: async query => {
    document.getElementById("query").value = query;
    document.getElementById("search").requestSubmit();
    await settled();
  },
  click: async (selector, index = 0) => {
    const element = [...document.querySelectorAll(selector)][index];
    element.tagName === "INPUT" ? element.click() : element.dispatchEvent(new MouseEvent("click", { bubbles: true, cancelable: true }));
    await settled();
  },
  address: async hash => {
    if (hash !== undefined) location.hash = hash;
    await settled();
    return location.hash;
  },
  back: async () => {
    const changed = new Promise(resolve => addEventListener("hashchange", resolve, { once: true }));
    history.back();
    await changed;
    await settled();
    return location.hash;
  },
  press: async (key, selector) => {
    if (selector) document.querySelector(selector).focus();
    (document.activeElement ?? document.body).dispatchEvent(new KeyboardEvent("keydown", { key, bubbles: true, cancelable: true }));
    await settled();
  },
  texts: selector => [...document.querySelectorAll(selector)].map(element => element.textContent),
  count: selector => document.querySelectorAll(selector).length,
  attributes: (selector, name) => [...document.querySelectorAll(selector)].map(element => element.getAttribute(name)),
  title: () => document.title,
  scroll: async (selector, top) => {
    document.querySelector(selector).scrollTop = top;
    await settled();
  },
  active: () => document.activeElement.id,
  size: selector => {
    const { width, height } = document.querySelector(selector).getBoundingClientRect();
    return { width, height };
  },
  /** Whether an element is seen whole in the one that scrolls it. */
  isInView: (selector, scroller) => {
    const [own, room] = [selector, scroller].map(name => document.querySelector(name).getBoundingClientRect());
    return own.top >= room.top && own.bottom <= room.bottom && own.left >= room.left && own.right <= room.right;
  },
  colour: (selector, name) => getComputedStyle(document.querySelector(selector)).getPropertyValue(name),
  select: async (selector, value) => {
    const element = document.querySelector(selector);
    element.value = value;
    element.dispatchEvent(new Event("change"));
    await settled();
  },
  /** What the button with this text gives to be saved: a name, a type, and how it begins. */
  saves: async text => {
    const { createObjectURL } = URL, { click } = HTMLAnchorElement.prototype, saved = [];
    URL.createObjectURL = blob => saved.push({ blob }) && createObjectURL.call(URL, blob);
    HTMLAnchorElement.prototype.click = function () { saved.at(-1).name = this.download; };
    [...document.querySelectorAll("button")].find(({ textContent }) => textContent === text).click();
    for (let turn = 0; turn < 40 && !saved.at(-1)?.name; turn++) await settled();
    Object.assign(URL, { createObjectURL });
    Object.assign(HTMLAnchorElement.prototype, { click });
    const { name, blob } = saved.at(-1), bytes = new Uint8Array(await blob.arrayBuffer());
    return [name, blob.type, String.fromCharCode(...bytes.subarray(0, 200))];
  },
  /** How the page stands on paper: what is seen, and where the cards are. */
  printed: async () => {
    const rules = [...document.styleSheets].flatMap(({ cssRules }) => [...cssRules]).filter(({ media }) => media?.mediaText === "print");
    const style = document.createElement("style");
    style.textContent = rules.flatMap(({ cssRules }) => [...cssRules]).map(({ cssText }) => cssText).join("\n");
    document.head.append(style);
    dispatchEvent(new Event("beforeprint"));
    await settled();
    const sheet = onPaper();
    style.remove();
    dispatchEvent(new Event("afterprint"));
    return sheet;
  },
  /** How dark the picture of a report's first structure is. */
  darkness: async text => {
    const report = await Report.read(bytesOf(text));
    return darkness(await pngOf(structureFile(new Drawing(report.structure(0), Page.roles), "one")));
  },
  refuses: async () => {
    const refused = act => new Promise(resolve => {
      addEventListener("securitypolicyviolation", event => resolve(event.effectiveDirective), { once: true });
      act();
    });
    const connect = await refused(() => fetch("https://example.invalid/").catch(() => {}));
    const image = await refused(() => { new Image().src = "https://example.invalid/i.png"; });
    globalThis.hasRun = false;
    const script = document.createElement("script");
    try {
      script.append("globalThis.hasRun = true");
      document.head.append(script);
    } catch { /* refused as text already */ }
    await settled();
    return { connect, image, hasRun: globalThis.hasRun };
  },
};
addEventListener("message", async ({ data: { id, call, given }, source }) => {
  try {
    source.postMessage({ id, result: await port[call](...given) }, "*");
  } catch (fault) {
    source.postMessage({ id, fault: fault.stack ?? String(fault) }, "*");
  }
});
if (parent !== window) parent.postMessage({ id: "ready" }, "*");
