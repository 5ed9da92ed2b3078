// What a view or a section shows of a solid, by the definitions, as pictures. A view looks along one axis: between two columns of cells an
// edge is drawn where they differ, solid where their first full depths do, else dashed. A section shows so the cells from those on that it
// cuts, its hidden edges left out, and an area these cells alone.
import { cellsOfSolid, measured, model, rankOf } from "./model.js";

// Of each view the axes to the right, upwards and along the sight, and whether each is gone along backwards.
const FRAMES = {
  FRONT: [[0, false], [2, false], [1, false]],
  TOP: [[0, false], [1, false], [2, true]],
  SIDE: [[1, false], [2, false], [0, true]],
  LEFT: [[1, true], [2, false], [0, false]],
  REAR: [[0, true], [2, false], [1, true]],
  BOTTOM: [[0, false], [1, true], [2, false]],
};
// Which view a section across each axis stands like.
const LIKE = ["SIDE", "FRONT", "TOP"];
const SVG = "http://www.w3.org/2000/svg";
export const AXES = "xyz";

/** How many cells there are along an axis. */
export function cellsAlong(axis) {
  return Math.max(0, model.counts[axis] - 1);
}

/** The cells of a view's column, from the viewer on, as a text of 0 and 1; outside the grid as an empty one. */
function columnAt(cells, frame, right, up) {
  const [across, upwards, sight] = frame;
  const at = [0, 0, 0];
  for (const [[axis, back], value] of [[across, right], [upwards, up]]) {
    if (value < 0 || value >= cellsAlong(axis)) return "";
    at[axis] = back ? cellsAlong(axis) - 1 - value : value;
  }
  let column = "";
  for (let depth = 0; depth < cellsAlong(sight[0]); depth++) {
    at[sight[0]] = sight[1] ? cellsAlong(sight[0]) - 1 - depth : depth;
    column += cells[at.reduce((place, rank, axis) => place + rank * model.strides[axis], 0)];
  }
  return column.includes("1") ? column : "";
}

function styleBetween(one, other) {
  if (one === other) return "";
  return one.indexOf("1") === other.indexOf("1") ? "dashed" : "solid";
}

/** The coordinates of a view along one of its axes, from 0 on. */
function cutsAlong([axis, back]) {
  const cut = model.cuts[axis];
  return back ? [...cut].reverse().map((at) => cut[cut.length - 1] - at) : cut.map((at) => at - cut[0]);
}

/** The longest stretches of one style along a line of a view. */
function runsOf(styles, cuts) {
  const runs = [];
  styles.forEach((style, at) => {
    const last = runs[runs.length - 1];
    if (style && last?.style === style && last.high === cuts[at]) last.high = cuts[at + 1];
    else if (style) runs.push({ style, low: cuts[at], high: cuts[at + 1] });
  });
  return runs;
}

/** The view or the section that a layer is of: a section also with the cells that it cuts along its sight. */
export function shownOn(layer, at) {
  const told = /^(SECTION|AREA)_([A-Z]+)_/.exec(layer);
  return told ? { view: told[2], at, isArea: told[1] === "AREA" } : { view: layer };
}

/** The section that is an area across an axis, which stands like a main view. */
export function areaAcross({ axis, at }) {
  return { view: LIKE[axis], at, isArea: true };
}

/** The cells of a solid that a view or a section shows. */
function cellsShown(number, { view, at, isArea }) {
  const cells = cellsOfSolid(number);
  if (at === undefined) return cells;
  const [axis, back] = FRAMES[view][2];
  const isShown = (rank) => (isArea ? rank === at : back ? rank <= at : rank >= at);
  return cells.map((full, place) => full & isShown(rankOf(place, axis)));
}

/** The lines that a view or a section shows of a solid: each upright or level, at a coordinate, from one to another, solid or dashed. */
export function linesOf(number, shown) {
  const cells = cellsShown(number, shown);
  const frame = FRAMES[shown.view];
  const [rights, ups] = [cutsAlong(frame[0]), cutsAlong(frame[1])];
  const columns = Array.from({ length: rights.length + 1 }, (_, i) =>
    Array.from({ length: ups.length + 1 }, (_, j) => columnAt(cells, frame, i - 1, j - 1)));
  const lines = [];
  rights.forEach((at, i) => {
    const styles = ups.slice(1).map((_, j) => styleBetween(columns[i][j + 1], columns[i + 1][j + 1]));
    lines.push(...runsOf(styles, ups).map((run) => ({ ...run, upright: true, at })));
  });
  ups.forEach((at, j) => {
    const styles = rights.slice(1).map((_, i) => styleBetween(columns[i + 1][j], columns[i + 1][j + 1]));
    lines.push(...runsOf(styles, rights).map((run) => ({ ...run, upright: false, at })));
  });
  return shown.at === undefined ? lines : lines.filter(({ style }) => style === "solid");
}

// ---- sections

export function sectionTold({ axis, at }) {
  const ends = [model.cuts[axis][at], model.cuts[axis][at + 1]].map((value) => measured(value));
  return `Section across ${AXES[axis]} between ${ends[0]} and ${ends[1]}`;
}

/** What an area has of a solid, as rectangles. */
function rectanglesOf(number, area) {
  const cells = cellsShown(number, area);
  const frame = FRAMES[area.view];
  const [rights, ups] = [cutsAlong(frame[0]), cutsAlong(frame[1])];
  const found = [];
  for (let i = 0; i < rights.length - 1; i++) {
    for (let j = 0; j < ups.length - 1; j++) {
      if (columnAt(cells, frame, i, j)) found.push([rights[i], ups[j], rights[i + 1] - rights[i], ups[j + 1] - ups[j]]);
    }
  }
  return found;
}

// ---- pictures

function drawn(kind, attributes) {
  const part = document.createElementNS(SVG, kind);
  for (const [name, value] of Object.entries(attributes)) part.setAttribute(name, value);
  return part;
}

/** What a view or a section shows of a solid; an area is hatched, within the box of its view. Each line is there in a further kind too. */
export function pictureOf(number, shown, name, kind = "") {
  const [wide, tall] = FRAMES[shown.view].slice(0, 2).map(([axis]) => model.cuts[axis][model.cuts[axis].length - 1] - model.cuts[axis][0]);
  const scale = 200 / Math.max(wide, tall);
  const label = `${name} of solid ${number + 1}`;
  const picture = drawn("svg", { viewBox: `-10 -10 ${wide * scale + 20} ${tall * scale + 20}`, role: "img", "aria-label": label });
  if (shown.isArea) picture.append(drawn("rect", { class: "outside", x: 0, y: 0, width: wide * scale, height: tall * scale }));
  for (const [x, y, width, height] of shown.isArea ? rectanglesOf(number, shown) : []) {
    picture.append(drawn("rect", { class: "hatched", x: x * scale, y: (tall - y - height) * scale, width: width * scale, height: height * scale }));
  }
  const lines = linesOf(number, shown).sort((one) => (one.style === "dashed" ? -1 : 1));
  for (const one of kind ? [kind, ""] : [""]) {
    for (const { upright, at, low, high, style } of lines) {
      const ends = upright ? [[at, low], [at, high]] : [[low, at], [high, at]];
      const d = `M${ends.map(([x, y]) => `${(x * scale).toFixed(2)},${((tall - y) * scale).toFixed(2)}`).join(" L")}`;
      picture.append(drawn("path", { class: one || style, d }));
    }
  }
  return picture;
}
