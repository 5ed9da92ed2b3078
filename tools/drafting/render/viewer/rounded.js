// Solids that are rounded back: what is drawn of them in place of their cells, as `draft follow` tells it of each by its choice.
import { change, state } from "./state.js";
import { find } from "./pieces.js";
import { choiceOf, measured, volumeOfSolid } from "./model.js";

const shapes = new Map();

export function resetRounded() {
  shapes.clear();
  find(".rounded-only").hidden = true;
}

export function takeRounded({ solids }) {
  for (const solid of solids) if (!shapes.has(solid.choice)) shapes.set(solid.choice, solid);
  find(".rounded-only").hidden = !shapes.size;
}

function roundedOf(number) {
  return shapes.size ? shapes.get(choiceOf(number)) : undefined;
}

/** What is drawn of a solid in place of its cells; null where it is drawn by these, which are what blocks and sections speak of. */
export function shapeOf(number) {
  return state.squared || state.brush !== null ? null : roundedOf(number) ?? null;
}

/** A solid's volume in words: that of the round one, where it is known. */
export function volumeTold(number) {
  return roundedOf(number)?.volume ?? measured(volumeOfSolid(number), 3);
}

export function listenForRounded() {
  find("#squared").addEventListener("change", ({ target }) => change({ squared: target.checked }));
}
