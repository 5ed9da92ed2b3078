// The tiles: a figure for each solid that is shown, with what is known of it and what can be done with it; and when each is drawn.
import { change, state, when } from "./state.js";
import { buttonOf, copyBy, find, spanOf } from "./pieces.js";
import { cellsOfSolid, choiceOf, measured, model, outsideOf, sizesOf } from "./model.js";
import { Tile, renderer, takeColours } from "./scene.js";
import { kindsNow, numberAt } from "./choices.js";
import { shapeOf, volumeTold } from "./rounded.js";

/** The tiles of the solids, and further ones beside them, which turn with them. */
export let tiles = [];
export const others = [];
// What a page of a server adds to a figure: by it solids are saved.
const additions = [];
// How far from the screen a tile is drawn already, in pixels.
const NEAR = 200;
// The tiles that are due to be drawn, and for how long they are in one frame, in milliseconds.
const due = new Set();
const FRAME = 50;
let sawThrough = false;
let isAsked = false;

/** Has something be added to each figure: what makes it gets the place of the figure. */
export function addToFigures(make) {
  additions.push(make);
}

// ---- when they are drawn

/** Asks for the tiles that are on the screen to be drawn anew, once for all that changes before the next frame. */
export function redraw() {
  if (!renderer) return;
  for (const tile of [...tiles, ...others]) due.add(tile);
  askForFrame();
}

function askForFrame() {
  if (!isAsked) requestAnimationFrame(drawDue);
  isAsked = true;
}

/** Draws tiles that are due, those first that have waited longest; where they take long, the others in the next frames. */
function drawDue() {
  isAsked = false;
  const until = performance.now() + FRAME;
  for (const tile of due) {
    if (performance.now() > until) return askForFrame();
    due.delete(tile);
    if (isNear(tile)) tile.draw();
  }
}

/** Whether a tile is on the screen, or nearly so; one that has just come is looked at here, since the browser tells it a frame later. */
function isNear({ canvas, isSeen }) {
  if (isSeen !== null) return isSeen;
  const { top, bottom, width } = canvas.getBoundingClientRect();
  return width > 0 && bottom > -NEAR && top < innerHeight + NEAR;
}

/** Has a tile be drawn while it is on the screen. */
export function watched(tile) {
  seen.observe(tile.canvas);
  sized.observe(tile.canvas);
  return tile;
}

const seen = new IntersectionObserver((entries) => {
  for (const entry of entries) {
    const tile = [...tiles, ...others].find(({ canvas }) => canvas === entry.target);
    if (tile) tile.isSeen = entry.isIntersecting;
  }
  redraw();
}, { rootMargin: `${NEAR}px` });
const sized = new ResizeObserver(() => redraw());

// ---- figures

function figureAt(at) {
  const figure = document.createElement("figure");
  const canvas = Object.assign(document.createElement("canvas"), { tabIndex: 0 });
  canvas.setAttribute("role", "button");
  const caption = document.createElement("figcaption");
  const name = spanOf("name", "");
  name.append(document.createElement("b"), " ", spanOf("volume", ""), " · ", spanOf("size", ""));
  const does = spanOf("does", "");
  does.append(
    buttonOf("Large", () => change({ large: numberAt(at) }), "large"),
    buttonOf("This one is meant", () => change({ meant: numberAt(at) === state.meant ? null : numberAt(at) }), "meant several-only"),
    buttonOf("Compare", () => pick(numberAt(at)), "compare several-only"),
    buttonOf("Copy choice", ({ target }) => copyBy(target, choiceOf(numberAt(at))), "copy"),
  );
  caption.append(name, does, ...additions.map((make) => make(at)));
  figure.append(canvas, caption);
  return figure;
}

/** Makes figures for so many solids, where there aren't as many yet. */
function ensureTiles(count) {
  while (tiles.length < count) {
    const figure = figureAt(tiles.length);
    find(".solids").append(figure);
    tiles.push(watched(new Tile(figure.querySelector("canvas"))));
  }
  setShown();
}

export function resetTiles() {
  tiles.forEach(({ canvas }) => [seen, sized].forEach((observer) => observer.unobserve(canvas)));
  tiles = [];
  find(".solids").replaceChildren();
}

export function figures() {
  return [...document.querySelectorAll(".solids figure")];
}

function showFigure(figure, at, kinds) {
  const number = numberAt(at);
  figure.hidden = number === undefined;
  if (figure.hidden) return;
  const cells = cellsOfSolid(number);
  const name = `solid ${number + 1}`;
  const volume = volumeTold(number);
  figure.querySelector("b").textContent = `Solid ${number + 1}`;
  figure.querySelector(".volume").textContent = `volume ${volume}`;
  figure.querySelector(".size").textContent = sizesOf(cells).map((size) => measured(size)).join(" × ");
  figure.querySelector("canvas").setAttribute("aria-label", `Solid ${number + 1}, volume ${volume}${state.cut ? `, cut at ${state.cut.told}` : ""}: turned by arrow keys, shown large by Enter`);
  const names = { large: `Show ${name} large`, meant: `${name[0].toUpperCase()}${name.slice(1)} is meant`, compare: `Compare ${name}`, copy: `Copy the choice of ${name}` };
  for (const [kind, words] of Object.entries(names)) figure.querySelector(`.${kind}`).setAttribute("aria-label", words);
  for (const button of figure.querySelectorAll("[data-form]")) button.setAttribute("aria-label", `Save ${name} as ${button.textContent}`);
  tiles[at].show(cells, kinds, shapeOf(number), state.cut);
}

/** Shows the solids that fit, from the first one on. */
export function showTiles() {
  if (!renderer || !model.count) return;
  ensureTiles(Math.min(state.most, state.fitting.length));
  const kinds = kindsNow();
  figures().forEach((figure, at) => showFigure(figure, at, kinds));
  markTiles();
  redraw();
}

/** Marks the one that is meant, and those that are picked. */
function markTiles() {
  figures().forEach((figure, at) => {
    const number = numberAt(at);
    figure.classList.toggle("picked", state.picked.includes(number));
    figure.classList.toggle("is-meant", state.meant !== null && number === state.meant);
    figure.querySelector(".compare").setAttribute("aria-pressed", state.picked.includes(number));
    figure.querySelector("button.meant").setAttribute("aria-pressed", number === state.meant);
  });
}

/** Picks a solid to be compared, or no longer; of three the first picked one goes. */
export function pick(number) {
  const { picked } = state;
  change({ picked: picked.includes(number) ? picked.filter((one) => one !== number) : [...picked, number].slice(-2) });
  if (state.picked.length === 2) find("#compared").scrollIntoView({ block: "nearest" });
}

/** Where some solids that are shown look the same from outside, draws all see-through. */
export function showAlike() {
  const shown = state.fitting.slice(0, state.most).map((number) => outsideOf(cellsOfSolid(number)));
  const isAlike = new Set(shown).size < shown.length;
  find(".alike").hidden = !isAlike;
  if (!sawThrough) change({ through: isAlike });
}

// ---- how they are shown

function setShown() {
  for (const id of ["through", "coloured"]) document.getElementById(id).checked = state[id];
  const { through, coloured } = state;
  [...tiles, ...others.filter(({ isPlain }) => isPlain)].forEach((tile) => Object.assign(tile, { through, coloured }));
  redraw();
}

export function listenForTiles() {
  when(["fitting", "first", "squared", "brush", "cut"], showTiles);
  when(["meant", "picked"], markTiles);
  when(["through", "coloured"], setShown);
  for (const id of ["through", "coloured"]) {
    document.getElementById(id).addEventListener("change", ({ target }) => {
      sawThrough ||= id === "through";
      change({ [id]: target.checked });
    });
  }
  for (const button of document.querySelectorAll("[data-size]")) {
    button.addEventListener("click", () => {
      const width = tiles[0].canvas.clientWidth * Number(button.dataset.size);
      find(".solids").classList.add("sized");
      find(".solids").style.setProperty("--tile", `${Math.max(90, Math.round(width))}px`);
    });
  }
  matchMedia("(prefers-color-scheme: dark)").addEventListener("change", () => {
    if (renderer) takeColours();
    redraw();
  });
  window.addEventListener("beforeprint", () => tiles.forEach((tile) => tile.draw()));
}
