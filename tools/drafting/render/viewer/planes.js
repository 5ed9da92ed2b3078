// The planes of the drawing's sections: by a button for each all solids are cut there, and shown whole again.
import { change, state, when } from "./state.js";
import { buttonOf } from "./pieces.js";
import { model } from "./model.js";
import { look } from "./turning.js";

let planes = [];
// From where solids may be seen, in degrees to the right of the front and above it; and how much of what is cut has to be seen.
const CORNERS = [[-32, 27], [32, 27], [148, 27], [-32, -27]];
const SEEN = 0.2;

/** Takes planes, each with its place from the part's least coordinate on. */
export function takePlanes(told) {
  planes = told.planes.map((plane) => ({ ...plane, at: model.cuts[plane.axis][0] + plane.at }));
  showPlanes();
}

export function resetPlanes() {
  planes = [];
  showPlanes();
}

function showPlanes() {
  for (const place of document.querySelectorAll(".cutting")) {
    place.replaceChildren(...planes.map((plane) => buttonOf(`Cut at ${plane.told}`, () => cutBy(plane))));
  }
  markCut();
}

/** Cuts all solids at a plane, or no longer; what is cut is seen then. */
function cutBy(plane) {
  change({ cut: plane === state.cut ? null : plane, section: null });
  if (state.cut && !isSeen(plane, state.right, state.above)) look(...CORNERS.find((corner) => isSeen(plane, ...corner)));
}

/** Whether what a plane cuts is seen from there. */
function isSeen({ axis, back }, right, above) {
  const [a, e] = [right, above].map((angle) => (angle * Math.PI) / 180);
  const toViewer = [Math.sin(a) * Math.cos(e), -Math.cos(a) * Math.cos(e), Math.sin(e)];
  return (back ? 1 : -1) * toViewer[axis] > SEEN;
}

function markCut() {
  for (const place of document.querySelectorAll(".cutting")) {
    [...place.children].forEach((button, at) => button.setAttribute("aria-pressed", planes[at] === state.cut));
  }
}

export function listenForPlanes() {
  when(["cut"], markCut);
}
