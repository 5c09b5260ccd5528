import "./still.mjs";
import { byId } from "../src/dom.mjs";
import { Page } from "../src/page.mjs";

/* ======== For a screenshot: why a message may be true, some steps on ======== */
const showFilm = async () => {
  const why = () => byId("messages").querySelector("button");
  for (let turn = 0; turn < 5000 && !why(); turn++) await null; // before the page counts as loaded
  why().click();
  for (let i = 0; i < 3; i++) Page.film.step(1);
};
showFilm();
