// The page: it takes what is told of a drawing, event by event, as `draft follow` writes them. In the file that `draft page` writes they
// stand at its end; `draft serve` is asked for them while the program searches, by table.js.
import { change, state } from "./state.js";
import { find } from "./pieces.js";
import { choiceOf, groupBlocks, model, resetModel, sortSolids, takeChoices, takeGrid } from "./model.js";
import { frameGrid, renderer, startDrawing } from "./scene.js";
import { listenForTiles, pick, resetTiles, showAlike, tiles } from "./tiles.js";
import { START, listenForTurns, look } from "./turning.js";
import { addFitting, findFitting, listenForFixing } from "./choices.js";
import { listenForPaging } from "./paging.js";
import { listenForPairs, pair } from "./compare.js";
import { largeTile, listenForLarge } from "./large.js";
import { listenForPlanes, resetPlanes, takePlanes } from "./planes.js";
import { listenForRounded, resetRounded, takeRounded } from "./rounded.js";
import { listenForMeans, resetMeans, takeMeans } from "./settle.js";
import { giveBy, listenForLengths, resetSaid, showLooking, showSaid, showSuggestion } from "./said.js";
import { linesOf, shownOn } from "./views.js";

let taken = [];

// ---- events

export function resetPage() {
  resetModel();
  resetMeans();
  resetSaid();
  resetTiles();
  resetRounded();
  resetPlanes();
  taken = [];
  change({
    how: "", means: [], fixed: new Map(), kept: null, fitting: [], fullIn: new Float64Array(0), first: 0, meant: null, picked: [], large: null,
    cut: null, zoom: 1, section: null, brush: null, pictured: null,
  });
  for (const place of document.querySelectorAll(".told, .drawing, footer")) place.replaceChildren();
  setKind();
}

/** Lays the page out for no solid, one or several. */
function setKind() {
  const kind = model.count > 1 ? "several" : model.count ? "one" : "alone";
  for (const one of ["several", "one", "alone"]) document.body.classList.toggle(one, one === kind);
}

const TAKES = {
  tiles: ({ count }) => change({ most: count }),
  said: ({ text }) => showSaid(text),
  drawing: ({ html }) => (find(".drawing").innerHTML = html),
  rounded: takeRounded,
  grid: takeNewGrid,
  planes: takePlanes,
  solids: takeSolids,
  end: takeEnd,
  looking: () => showLooking("Changes are tried by running the program."),
  suggestion: showSuggestion,
  looked: ({ first, rows }) => showLooking([first, ...rows].join(" ")),
  means: takeMeans,
};

export function take(event) {
  taken.push(event);
  TAKES[event.kind]?.(event);
}

export function replay(events) {
  resetPage();
  events.forEach(take);
}

function takeNewGrid(event) {
  takeGrid(event);
  if (!startDrawing()) {
    find(".undrawn").hidden = false;
    return;
  }
  frameGrid();
  findFitting();
  look(state.right, state.above);
}

function takeSolids({ choices }) {
  const before = model.count;
  takeChoices(choices);
  addFitting(before);
  setKind();
  if (before < state.most && renderer) showIn(0, showFirst);
  else showIn(Math.min(2000, Math.max(200, 4 * cost)), refresh);
}

/** Shows the solids that have come, while all that are shown may still be among them. */
function showFirst() {
  showAlike();
  refresh();
}

function takeEnd({ html, how }) {
  find(".told").innerHTML = html;
  find("footer").replaceChildren(...document.querySelectorAll(".told .figures"));
  const places = sortSolids();
  groupBlocks();
  const picked = model.count === 2 && !state.picked.length ? [0, 1] : state.picked.map((number) => places[number]);
  const [meant, large] = [state.meant, state.large].map((number) => (number === null ? null : places[number]));
  isDue = false;
  findFitting();
  showAlike();
  change({ how, picked, meant, large });
}

// ---- what is due

let isDue = false;
let cost = 0;

function refresh() {
  if (!renderer || !model.count) return;
  const began = performance.now();
  change({ fitting: state.fitting });
  cost = performance.now() - began;
}

/** Shows what has come in so many milliseconds, unless all of it is shown before: so the first solids at once, but those that came together
 *  together, and further ones at most a few times in a second. */
function showIn(milliseconds, show) {
  if (isDue) return;
  isDue = true;
  setTimeout(() => {
    if (isDue) show();
    isDue = false;
  }, milliseconds);
}

// ---- begin

/** Shows the solids that a suggestion of this file gives, with a way back. */
function showGiven(suggestion) {
  const back = [...taken];
  replay(suggestion.events);
  offerBack(suggestion, () => replay(back));
}

export function offerBack(suggestion, goBack) {
  const box = find(".given");
  box.hidden = false;
  box.querySelector("p").textContent = `So drawn, with: ${suggestion.words.join("; ")}`;
  box.querySelector("button").onclick = () => {
    box.hidden = true;
    goBack();
  };
}

function begin() {
  giveBy({ isServed: false, show: showGiven });
  for (const listen of [listenForTiles, listenForTurns, listenForFixing, listenForPaging, listenForPairs, listenForLarge, listenForPlanes, listenForRounded, listenForMeans, listenForLengths]) listen();
  look(START.right, START.above);
  const events = JSON.parse(document.getElementById("events").textContent);
  if (events.length) replay(events);
  else setKind();
}

// What a console, and the tests, may look at and use.
window.viewer = {
  state, model, change, choiceOf, pick,
  linesOf: (number, layer, at) => linesOf(number, shownOn(layer, at)),
  get tiles() { return tiles; }, get pair() { return pair; }, get large() { return largeTile; },
};
begin();
