// One solid large: turned and zoomed, cut by a section, with its three views beside.
import { change, state, when } from "./state.js";
import { find } from "./pieces.js";
import { cellsOfSolid, model } from "./model.js";
import { Tile, renderer } from "./scene.js";
import { others, redraw, tiles, watched } from "./tiles.js";
import { brushAt, kindsNow } from "./choices.js";
import { shapeOf, volumeTold } from "./rounded.js";
import { areaAcross, cellsAlong, pictureOf, sectionTold, shownOn } from "./views.js";

export let largeTile = null;
// How far a click may move, in pixels.
const STILL = 4;

// ---- shown

/** The plane of a section through a layer of cells, in its middle: what is above it, or on its left or in front of it, is cut off. */
function planeOf({ axis, at }) {
  return { axis, at: (model.cuts[axis][at] + model.cuts[axis][at + 1]) / 2, back: axis === 2 };
}

function showLarge() {
  const dialog = find("#large");
  if (state.large === null || !renderer) {
    if (dialog.open) dialog.close();
    return;
  }
  if (!dialog.open) dialog.showModal();
  const number = state.large;
  const place = state.fitting.indexOf(number);
  dialog.querySelector("h2").textContent = `Solid ${number + 1}`;
  dialog.querySelector(".volume").textContent = `volume ${volumeTold(number)}`;
  dialog.querySelector("canvas").setAttribute("aria-label", `Solid ${number + 1}, large: turned by arrow keys, larger and smaller by + and -`);
  dialog.querySelector(".before").disabled = place <= 0;
  dialog.querySelector(".after").disabled = place < 0 || place === state.fitting.length - 1;
  dialog.querySelector(".several-only").hidden = model.count < 2;
  dialog.querySelector(".views-of").replaceChildren(...["TOP", "FRONT", "SIDE"].map((view) => captioned(view, pictureOf(number, shownOn(view), view))));
  showCut(dialog, number);
  largeTile.show(cellsOfSolid(number), kindsNow(), shapeOf(number), state.section ? planeOf(state.section) : state.cut);
  redraw();
}

function captioned(words, picture) {
  const figure = document.createElement("figure");
  figure.className = `of-${words.split(" ")[0].toLowerCase()}`;
  figure.append(picture, Object.assign(document.createElement("figcaption"), { textContent: words }));
  return figure;
}

function showCut(dialog, number) {
  const { section } = state;
  dialog.querySelector("select").value = section ? section.axis : "";
  dialog.querySelector(".plane").hidden = !section;
  const place = dialog.querySelector(".cut-of");
  place.replaceChildren();
  if (!section) return;
  const plane = dialog.querySelector(".plane input");
  plane.max = cellsAlong(section.axis) - 1;
  plane.value = section.at;
  plane.setAttribute("aria-valuetext", sectionTold(section));
  place.append(captioned(sectionTold(section), pictureOf(number, areaAcross(section), sectionTold(section))));
}

function showMark() {
  find("#large button.meant").setAttribute("aria-pressed", state.large !== null && state.large === state.meant);
}

function showZoom() {
  if (largeTile) largeTile.zoom = state.zoom;
  redraw();
}

// ---- what a person does

function zoomBy(times) {
  change({ zoom: times ? Math.max(0.5, Math.min(40, state.zoom * times)) : 1 });
}

function stepBy(solids) {
  const number = state.fitting[state.fitting.indexOf(state.large) + solids];
  if (number !== undefined) change({ large: number });
}

function listenInside(dialog) {
  dialog.addEventListener("close", () => change({ large: null, section: null, zoom: 1 }));
  dialog.querySelector(".close").addEventListener("click", () => dialog.close());
  dialog.querySelector(".before").addEventListener("click", () => stepBy(-1));
  dialog.querySelector(".after").addEventListener("click", () => stepBy(1));
  for (const button of dialog.querySelectorAll("[data-zoom]")) button.addEventListener("click", () => zoomBy(Number(button.dataset.zoom)));
  dialog.querySelector("button.meant").addEventListener("click", () => change({ meant: state.meant === state.large ? null : state.large }));
  dialog.querySelector("select").addEventListener("change", ({ target }) => {
    const axis = Number(target.value);
    change({ section: target.value ? { axis, at: Math.floor(cellsAlong(axis) / 2) } : null });
  });
  dialog.querySelector(".plane input").addEventListener("input", ({ target }) => change({ section: { ...state.section, at: Number(target.value) } }));
  dialog.querySelector("canvas").addEventListener("wheel", (event) => {
    event.preventDefault();
    zoomBy(event.deltaY < 0 ? 1.15 : 1 / 1.15);
  }, { passive: false });
  dialog.addEventListener("keydown", (event) => {
    const times = { "+": 1.25, "=": 1.25, "-": 0.8, 0: 0 }[event.key];
    const solids = { ArrowLeft: -1, ArrowRight: 1 }[event.key];
    if (event.target.closest("input, select")) return;
    if (times !== undefined) zoomBy(times);
    else if (solids && !event.target.closest("canvas, .views")) stepBy(solids);
  });
}

/** A click on a tile shows its solid large, or fixes the block that is seen there, while that is chosen. */
function listenForClicks() {
  let from = null;
  document.addEventListener("pointerdown", (event) => (from = [event.clientX, event.clientY]));
  document.addEventListener("pointerup", (event) => {
    const at = tiles.findIndex(({ canvas }) => canvas === event.target);
    if (at < 0 || !from || Math.hypot(event.clientX - from[0], event.clientY - from[1]) >= STILL) return;
    if (state.brush !== null) brushAt(tiles[at], event);
    else change({ large: state.fitting[state.first + at] });
  });
  document.addEventListener("keydown", (event) => {
    const at = tiles.findIndex(({ canvas }) => canvas === event.target);
    if (event.key !== "Enter" || at < 0) return;
    event.preventDefault();
    change({ large: state.fitting[state.first + at] });
  });
}

export function listenForLarge() {
  const dialog = find("#large");
  largeTile = watched(new Tile(dialog.querySelector("canvas")));
  largeTile.isPlain = true;
  others.push(largeTile);
  when(["large", "section", "squared", "cut"], showLarge);
  when(["large", "meant"], showMark);
  when(["zoom"], showZoom);
  listenInside(dialog);
  listenForClicks();
}
