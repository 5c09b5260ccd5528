import { byId, html } from "./dom.mjs";
import { bytesOf } from "./tokens.mjs";
import { GivenFile, droppedFiles, readFile } from "./files.mjs";
import { DRAWING_STYLE } from "./svg.mjs";
import { GRAPH_STYLE } from "./graph.mjs";
import { Gallery } from "./gallery.mjs";
import { Film } from "./film.mjs";
import { ProgramText } from "./text.mjs";
import { Large } from "./large.mjs";
import { Links } from "./links.mjs";
import { Page } from "./page.mjs";

/* ======== What keys, buttons and files do ======== */
const on = (id, event, action) => byId(id).addEventListener(event, action);
const openChosen = async input => {
  const files = await Promise.all([...input.files].map(file => readFile(file, file.webkitRelativePath)));
  input.value = "";
  await Page.open(files);
};
/** The files that stand in the page itself, as `./tvla-page` puts them there. */
const openInner = async id => {
  const inner = JSON.parse(byId(id).textContent);
  if (inner.length) await Page.open(inner.map(({ path, base64 }) => new GivenFile(path, Uint8Array.from(atob(base64), letter => letter.charCodeAt(0)))));
};
const openText = (name, text) => text && Page.open([new GivenFile(name, bytesOf(text))]);
const openDrop = async event => {
  event.preventDefault();
  document.body.classList.remove("over");
  const { dataTransfer } = event, text = dataTransfer.getData("text");
  try {
    if (dataTransfer.files.length) await Page.open(await droppedFiles(dataTransfer));
    else await openText("dropped text", text);
  } catch (fault) {
    Page.say(`What was dropped can't be read (${fault.message}): take “Open files…” or “Open a folder…”.`, true);
  }
};

/** What is kept from one visit to the next; some browsers keep nothing for files from disk. */
const keep = (name, value) => {
  try {
    localStorage.setItem(`tvla ${name}`, value);
  } catch { /* then it isn't kept */ }
};
const kept = name => {
  try {
    return localStorage.getItem(`tvla ${name}`);
  } catch {
    return null;
  }
};

document.head.append(html("style", { textContent: DRAWING_STYLE + GRAPH_STYLE }));
Page.gallery = new Gallery(byId("listing"), byId("sheet"), i => Page.card(i));
Page.film = new Film(Page);
Page.text = new ProgramText(Page);
on("open", "click", () => byId("files").click());
on("files", "change", () => openChosen(byId("files")));
on("openFolder", "click", () => byId("folder").click());
on("folder", "change", () => openChosen(byId("folder")));
on("compare", "click", () => byId("second").click());
on("second", "change", () => {
  Page.given.wantsSecond = true;
  return openChosen(byId("second"));
});
on("showAll", "change", () => Page.showNode(Page.node));
on("openExample", "click", () => openInner("example"));
on("theme", "change", () => {
  document.documentElement.style.colorScheme = byId("theme").value;
  keep("colours", byId("theme").value);
});
on("showHelp", "click", () => byId("help").showModal());
on("search", "submit", event => {
  event.preventDefault();
  const query = byId("query").value.trim();
  Page.go(query ? Links.search(query) : Links.structure(Page.node));
});
on("saveListed", "click", () => Large.saveListed(Page));
on("large", "close", () => document.body.classList.remove("one"));
addEventListener("hashchange", () => {
  byId("large").close();
  if (!Page.follow() && !location.hash && Page.names.length) Page.showNode(Page.names.find(name => Page.count(name)) ?? Page.names[0]);
});
addEventListener("click", event => { // the address may have the link already
  const link = event.target.closest?.("a[href^='#']");
  if (!link || event.ctrlKey || event.metaKey || event.shiftKey) return;
  event.preventDefault();
  Page.go(link.getAttribute("href"));
});
addEventListener("dragover", event => {
  event.preventDefault();
  document.body.classList.add("over");
});
addEventListener("dragleave", event => { if (!event.relatedTarget) document.body.classList.remove("over"); });
addEventListener("drop", openDrop);
addEventListener("paste", event => {
  if (!event.target.closest("input")) openText("pasted text", event.clipboardData.getData("text"));
});
const KEYS = { ArrowLeft: () => Page.film.step(-1), ArrowRight: () => Page.film.step(1), n: () => Page.step(1), j: () => Page.step(1), p: () => Page.step(-1),
  k: () => Page.step(-1), Enter: () => Page.showAim(), "/": () => byId("query").focus(), "?": () => byId("help").showModal() };
const FEED_KEYS = { PageDown: () => Page.step(1), PageUp: () => Page.step(-1) };
addEventListener("keydown", event => {
  const { key, target } = event;
  if (event.ctrlKey || event.altKey || event.metaKey || target.closest?.("input, select")) return;
  if (byId("large").open) {
    if (Large.key(key)) event.preventDefault();
    return;
  }
  if (document.querySelector("dialog[open]") || key === "Enter" && target.closest?.("a, button, summary")) return;
  const act = KEYS[key] ?? (target.closest?.("#listing") ? FEED_KEYS[key] : null);
  if (!act) return;
  event.preventDefault();
  act();
});
addEventListener("beforeprint", () => Page.gallery.hold(200));
addEventListener("afterprint", () => Page.gallery.release());
byId("theme").value = kept("colours") ?? "light dark";
document.documentElement.style.colorScheme = byId("theme").value;
openInner("given");
