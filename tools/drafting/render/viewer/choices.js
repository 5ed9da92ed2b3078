// Which solids are shown: those in which each block that is fixed is full or empty as asked, and which look as one that is meant does in
// a further view. Blocks that are alike in all solids stand together as a group, told by its first one.
import { change, state, when } from "./state.js";
import { buttonOf, counted, find, many, spanOf } from "./pieces.js";
import { isFull, model } from "./model.js";
import { camera } from "./scene.js";

const STATES = { full: 1, empty: 0, either: undefined };
// The most rows of blocks that are listed.
const MOST_ROWS = 200;

/** Whether a solid has all fixed blocks as asked, whatever it has of one of them. */
function fits(number, but) {
  const { kept, fixed } = state;
  if (kept && kept.keys[number] !== kept.group) return false;
  for (const [block, full] of fixed) if (block !== but && isFull(number, block) !== full) return false;
  return true;
}

function fittingBut(but) {
  const found = [];
  for (let number = 0; number < model.count; number++) if (fits(number, but)) found.push(number);
  return found;
}

/** In how many of some solids a block is full. */
function countFull(numbers, block) {
  return numbers.reduce((count, number) => count + isFull(number, block), 0);
}

/** Looks anew which solids fit. */
export function findFitting() {
  const fitting = fittingBut(null);
  const fullIn = state.fixed.size || state.kept
    ? Float64Array.from({ length: model.blocks }, (_, block) => countFull(fitting, block))
    : Float64Array.from(model.full);
  change({ fitting, fullIn, first: 0 });
}

/** Adds the solids from a number on, which have just come; they are shown when that is due. */
export function addFitting(from) {
  for (let number = from; number < model.count; number++) {
    if (!fits(number, null)) continue;
    state.fitting.push(number);
    for (let block = 0; block < model.blocks; block++) state.fullIn[block] += isFull(number, block);
  }
}

/** The kind of each cell: 0 where all fitting solids have it, 1 where most of them do, 2 where half of them or fewer. */
export function kindsNow() {
  const count = state.fitting.length;
  const kinds = Array.from(state.fullIn, (full) => (full === count ? 0 : 2 * full > count ? 1 : 2));
  return Uint8Array.from(model.blockAt, (block) => (block >= 0 ? kinds[block] : 2));
}

/** The number of the solid in a figure, if it has one. */
export function numberAt(at) {
  return state.fitting[state.first + at];
}

// ---- counts

/** What is asked of the solids that are shown, in words. */
function askedInWords() {
  const { fixed, kept } = state;
  const words = [...fixed].map(([block, full]) => `block ${block + 1} ${full ? "full" : "empty"}`);
  const have = [words.length ? `have ${words.join(", ")}` : "", kept ? `look like solid ${kept.meant + 1} in ${kept.name}` : ""];
  return have.filter(Boolean).join(" and ");
}

/** How many solids are left, and of each block that only some have how many it would leave full and empty. */
function showCounts() {
  const box = find(".fixing");
  const asked = askedInWords();
  box.querySelector(".count").textContent = asked ? `${counted(state.fitting.length)} of ${many(model.count, "solid")} ${asked}` : "";
  box.querySelector(".undo").hidden = !asked;
  showRows(box);
}

function showRows(box) {
  const varying = model.groups.filter(([block]) => model.full[block] > 0 && model.full[block] < model.count);
  box.hidden = !varying.length;
  const listed = varying.slice(0, MOST_ROWS);
  const signature = listed.map((group) => group.join()).join(" ");
  const list = box.querySelector(".blocks");
  if (list.dataset.signature !== signature) {
    list.dataset.signature = signature;
    list.replaceChildren(...listed.map(rowOf));
    if (varying.length > MOST_ROWS) list.append(`.. and ${varying.length - MOST_ROWS} more, which a click on them fixes.`);
  }
  for (const row of list.querySelectorAll(".block")) showRow(row, Number(row.dataset.block));
}

function showRow(row, block) {
  const { fixed, fitting, fullIn } = state;
  const among = fixed.has(block) ? fittingBut(block) : fitting;
  const full = fixed.has(block) ? countFull(among, block) : fullIn[block];
  const leaves = { full, empty: among.length - full, either: among.length };
  row.querySelector(".counts").textContent = `full in ${leaves.full}, empty in ${leaves.empty}`;
  for (const button of row.querySelectorAll("button")) {
    button.setAttribute("aria-pressed", fixed.get(block) === STATES[button.dataset.fix]);
    button.disabled = !leaves[button.dataset.fix];
  }
}

// ---- fixed

/** Fixes a block full or empty, or no longer. What was fixed last stands last. */
export function fix(block, full) {
  state.fixed.delete(block);
  if (full !== undefined) state.fixed.set(block, full);
  findFitting();
}

/** Takes back what was asked for last. */
function undo() {
  if (!state.kept) return fix([...state.fixed.keys()].pop(), undefined);
  keep(null);
}

/** Leaves those solids alone that look like one in a further view, or all again. */
export function keep(view) {
  change({ kept: view });
  findFitting();
}

function rowOf(blocks) {
  const row = document.createElement("div");
  row.className = "block";
  row.dataset.block = blocks[0];
  const names = blocks.slice(0, 8).map((block) => block + 1).join(", ");
  const name = `${blocks.length === 1 ? "Block" : "Blocks"} ${names}${blocks.length > 8 ? ", .." : ""}`;
  const buttons = spanOf("buttons", "");
  for (const [word, full] of Object.entries(STATES)) {
    const button = buttonOf(word[0].toUpperCase() + word.slice(1), () => fix(blocks[0], full));
    button.dataset.fix = word;
    button.setAttribute("aria-label", `${name}: ${word}`);
    buttons.append(button);
  }
  row.append(buttons, spanOf("", name), spanOf("counts", ""));
  return row;
}

/** The block that is seen at a place of a tile: through clear faces one that is coloured; the first of its group, or -1. */
function blockSeen(tile, event) {
  const box = tile.canvas.getBoundingClientRect();
  const at = new THREE.Vector2(2 * (event.clientX - box.left) / box.width - 1, 1 - 2 * (event.clientY - box.top) / box.height);
  const ray = new THREE.Raycaster();
  camera.zoom = tile.zoom;
  camera.updateProjectionMatrix();
  ray.setFromCamera(at, camera);
  const seen = tile.scene && ray.intersectObject(tile.marks.visible ? tile.marks : tile.skin)[0];
  if (!seen) return -1;
  const within = seen.point.clone().addScaledVector(seen.face.normal, -1e-3);
  const ranks = within.toArray().map((value, axis) => model.cuts[axis].findLastIndex((cut) => cut <= value));
  if (ranks.some((rank) => rank < 0)) return -1;
  const block = model.blockAt[ranks.reduce((place, rank, axis) => place + rank * model.strides[axis], 0)];
  return model.groups.find((group) => group.includes(block))?.[0] ?? -1;
}

/** Fixes the block that is seen there as the brush says, or frees it where it is fixed so. */
export function brushAt(tile, event) {
  const block = blockSeen(tile, event);
  if (block < 0 || !model.full[block] || model.full[block] === model.count) return;
  fix(block, state.fixed.get(block) === state.brush ? undefined : state.brush);
}

export function listenForFixing() {
  when(["fitting", "first"], showCounts);
  find(".fixing .undo").addEventListener("click", undo);
  for (const button of document.querySelectorAll("[data-brush]")) {
    const brush = Number(button.dataset.brush);
    button.addEventListener("click", () => change({ brush: state.brush === brush ? null : brush }));
    when(["brush"], () => button.setAttribute("aria-pressed", state.brush === brush));
  }
  when(["brush"], () => document.body.classList.toggle("brushing", state.brush !== null));
}
