// What would settle it, where several solids have the views: what each further view and each section tells apart, what it shows of the
// solid that is meant, and which solids it leaves with that one.
import { change, state, when } from "./state.js";
import { buttonOf, copyBy, find, many, spanOf } from "./pieces.js";
import { model } from "./model.js";
import { keep } from "./choices.js";
import { pictureOf, shownOn } from "./views.js";

/** What a view is called by those who don't draw. */
const CALLED = {
  FRONT: "The view from the front", TOP: "The view from above", SIDE: "The view from the right", LEFT: "A view from the left", REAR: "A view from behind",
  BOTTOM: "A view from below",
};
let isDrawn = true;
/** What a page of a server does with lines to be added. */
let adding = null;

export function addBy(acts) {
  adding = acts;
}

export function takeMeans({ rows, text, drawn }) {
  isDrawn = drawn ?? true;
  find("#settle").hidden = false;
  // On a small screen the solids come first.
  find("#settle details").open = innerWidth > 820;
  find("#settle .state").textContent = text;
  find("#settle .meaning").hidden = !rows.length;
  change({ means: rows });
}

/** How many solids each group has, the largest first; where nothing is to be drawn all are left. */
function groupSizes({ keys }) {
  const sizes = new Map();
  for (const key of keys) sizes.set(key, (sizes.get(key) ?? 0) + 1);
  return [...sizes].map(([key, count]) => (key === null ? keys.length : count)).sort((one, other) => other - one);
}

/** How many solids a view or a section leaves with the one that is meant: all, where it has nothing to be drawn. */
function leftBy({ keys }) {
  const drawn = keys[state.meant];
  return keys.filter((key) => key === drawn || drawn === null).length;
}

function nameOf({ name, at }) {
  return at === null ? `${CALLED[name] ?? name} (${name})` : `A ${name}`;
}

/** What a view or a section tells, as a sentence. */
function tellsWhat(view) {
  const [largest, ...others] = groupSizes(view);
  if (!others.length) return "shows all of them alike";
  if (largest === 1) return "shows each of them otherwise: it settles it, whichever is meant";
  const left = state.meant === null ? "" : leftBy(view);
  const meant = left === "" ? "" : left === 1 ? `; it leaves solid ${state.meant + 1} alone` : `; it leaves ${left} with solid ${state.meant + 1}`;
  return `parts them into ${others.length + 1} groups, the largest of ${largest}${meant}`;
}

function rowOfMeans(view) {
  const row = document.createElement("li");
  const sizes = groupSizes(view);
  Object.assign(row.dataset, { name: view.name, groups: sizes.length, largest: sizes[0], leaves: state.meant === null ? "" : leftBy(view) });
  row.append(Object.assign(document.createElement("b"), { textContent: nameOf(view) }), ` ${tellsWhat(view)}. `);
  if (state.meant === null || sizes.length === 1 || view.keys[state.meant] === null) return row;
  const isKept = state.kept?.name === view.name;
  const button = buttonOf("Show", () => showBy(isKept ? null : view), "show");
  button.setAttribute("aria-pressed", isKept);
  button.setAttribute("aria-label", `Show what ${view.name} shows of solid ${state.meant + 1}, and the solids that it leaves`);
  row.append(button);
  return row;
}

/** Draws what a view shows of the solid that is meant, and leaves those solids that look like it there; or all again. */
function showBy(view) {
  const { meant } = state;
  change({ pictured: view?.name ?? null });
  keep(view && { ...view, meant, group: view.keys[meant] });
}

/** The views first, which recon reads without an option; then the sections. */
function showMeans() {
  if (!model.count) return;
  const [views, sections] = [state.means.filter(({ at }) => at === null), state.means.filter(({ at }) => at !== null)];
  find("#settle .by-views").replaceChildren(...views.map(rowOfMeans));
  find("#settle .by-sections").replaceChildren(...sections.map(rowOfMeans));
  find("#settle .sections").hidden = !sections.length;
  showThen();
  showPictured();
}

/** What is to be done, in the verdict's last line: the first view that does, else the first section. */
function showThen() {
  const then = find(".told .ambiguous .then");
  if (!then || !state.means.length) return;
  const best = state.means.find((view) => (state.meant === null ? groupSizes(view)[0] : leftBy(view)) === 1);
  then.textContent = best ? `${nameOf(best)} would settle it.`
    : state.meant === null ? "Say which is meant, by its number or below it, to see what would settle it."
    : `What to add for solid ${state.meant + 1} is told under “What would settle it”.`;
}

// ---- drawn

function showPictured() {
  const place = find("#pictured");
  const view = state.means.find(({ name }) => name === state.pictured);
  place.hidden = !view || state.meant === null || !isDrawn;
  if (place.hidden) return;
  const shown = shownOn(view.layer, view.at);
  place.querySelector("h2").textContent = `${nameOf(view)}, of solid ${state.meant + 1}`;
  const picture = pictureOf(state.meant, shown, view.name, "suggested");
  const where = view.at === null ? "" : `, on the layer ${view.layer}`;
  const words = `Its lines are marked: they would be added to the drawing${where}.${shown.isArea ? " Hatched is what it cuts." : ""}`;
  place.querySelector(".picture").replaceChildren(picture, Object.assign(document.createElement("p"), { className: "muted", textContent: words }));
  place.querySelector(".acts").replaceChildren(...(adding ? actsFor([view.layer]) : []));
  place.scrollIntoView({ block: "nearest" });
}

/** What can be done with the lines of some views, or of the fewest that do. */
function actsFor(views) {
  const copy = buttonOf("Copy the lines", async () => {
    const told = await adding.told(state.meant, views);
    if (told) copyBy(copy, told.lines.join("\n"));
  });
  return [
    buttonOf("Save the drawing with it", () => adding.save(state.meant, views)),
    buttonOf("Read the drawing with it", () => adding.read(state.meant, views)),
    copy,
  ];
}

/** Tells what to add for the solid that is meant, by the fewest views. */
async function showAdded() {
  const place = find("#settle .added");
  place.hidden = false;
  place.replaceChildren(spanOf("muted", "Looking for the fewest lines .."));
  const told = await adding.told(state.meant, []);
  place.hidden = !told;
  if (!told) return;
  const words = Object.assign(document.createElement("div"), { className: "words" });
  words.append(...told.words.map((text) => Object.assign(document.createElement("p"), { textContent: text.trim() })));
  if (told.lines.length) words.append(Object.assign(document.createElement("p"), { className: "muted", textContent: many(told.lines.length, "line") + " to be added" }));
  place.replaceChildren(words, ...(told.lines.length ? actsFor([]) : []));
}

function forgetAdded() {
  find("#settle .added").hidden = true;
  find("#settle .add").disabled = state.meant === null || !adding;
  if (state.meant === null || state.kept && state.kept.meant !== state.meant) {
    change({ pictured: null });
    if (state.kept) keep(null);
  }
}

export function resetMeans() {
  isDrawn = true;
  for (const place of [".by-views", ".by-sections", ".added"]) find(`#settle ${place}`).replaceChildren();
  for (const place of ["#settle", "#pictured", "#settle .added"]) find(place).hidden = true;
}

export function listenForMeans() {
  when(["meant"], forgetAdded);
  when(["means", "meant", "kept", "pictured"], showMeans);
  find("#settle .add").addEventListener("click", showAdded);
}
