// Two solids that are picked, and what each has that the other lacks.
import { state, when } from "./state.js";
import { find } from "./pieces.js";
import { cellsOfSolid, measured, model, volumeOf, without } from "./model.js";
import { Tile } from "./scene.js";
import { others, redraw, watched } from "./tiles.js";

export let pair = [];

function compare() {
  const box = find("#compared");
  const { picked } = state;
  const [one, two] = [...picked].sort((a, b) => a - b);
  box.querySelector(".pair").hidden = picked.length < 2;
  box.querySelector(".asked").textContent =
    picked.length === 2 ? `Solids ${one + 1} and ${two + 1} compared`
    : picked.length ? `Solid ${one + 1} is picked: pick the one to compare it with.`
    : "To see what one solid has and another lacks, pick both by Compare.";
  if (picked.length < 2 || !model.count) return;
  [[one, two], [two, one]].forEach(([first, second], at) => {
    const more = without(cellsOfSolid(first), cellsOfSolid(second));
    const volume = volumeOf(more);
    pair[at].show(cellsOfSolid(first), more.map((full) => 2 * full));
    pair[at].through = true;
    box.querySelectorAll("figcaption")[at].textContent = volume
      ? `Solid ${first + 1} has, and solid ${second + 1} lacks: volume ${measured(volume, 3)}`
      : `Solid ${first + 1} has nothing that solid ${second + 1} lacks`;
  });
  redraw();
}

export function listenForPairs() {
  pair = [...document.querySelectorAll(".pair canvas")].map((canvas) => watched(new Tile(canvas)));
  others.push(...pair);
  when(["picked"], compare);
}
