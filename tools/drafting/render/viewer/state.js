// What the page shows, in one place. Whoever changes it says so by `change`; whoever shows a part of it is told by `when`, once for all
// that changes together. The solids themselves are in model.js.

export const state = {
  // Told of the drawing: how its search ended, the further views and sections, and how many solids are shown at a time.
  how: "", means: [], most: 64,
  // Which solids fit what was asked (blocks fixed full or empty, and the view that is kept), of each block in how many of these it is full,
  // and the place of the first one that is shown.
  fixed: new Map(), kept: null, fitting: [], fullIn: new Float64Array(0), first: 0,
  // The solid that is meant, those that are picked to be compared, the one that is shown large, by their numbers from 0.
  meant: null, picked: [], large: null,
  // At which plane all solids are cut: its axis, where it lies there, and whether what is farther is cut off, else what is nearer.
  cut: null,
  // How large: how much larger than fitted, and the section: its axis and the layer of cells that it cuts.
  zoom: 1, section: null,
  // From where they are seen, in degrees to the right of the front and above it; how they are drawn, rounds squared off or not; and
  // whether a click on a block fixes it full (1) or empty (0).
  right: -32, above: 27, through: false, coloured: true, squared: false, brush: null,
  // The further view or section that is drawn for the solid that is meant, by its name.
  pictured: null,
};

const listeners = [];

/** Has something be done whenever one of these parts has changed. */
export function when(parts, act) {
  listeners.push({ parts, act });
}

/** Changes some parts, and tells those who show them. */
export function change(parts) {
  Object.assign(state, parts);
  for (const { parts: theirs, act } of listeners) if (theirs.some((part) => part in parts)) act();
}
