// Which solids are on the page, so many at a time, and the way to any of them: by its number, which becomes the one that is meant, by
// Before and Next, or by the arrow keys to the left and right.
import { change, state, when } from "./state.js";
import { counted, find } from "./pieces.js";
import { model } from "./model.js";
import { findFitting } from "./choices.js";
import { figures } from "./tiles.js";

/** The number of a solid that a text tells, from 0 on, or null. */
export function numberIn(text) {
  const number = Number(text) - 1;
  return text.trim() && Number.isInteger(number) && number >= 0 && number < model.count ? number : null;
}

/** Has a solid be on the page, and all again where what was asked of them leaves it out. */
function bring(number) {
  if (!state.fitting.includes(number)) {
    state.fixed.clear();
    change({ kept: null });
    findFitting();
  }
  const place = state.fitting.indexOf(number);
  const first = place - (place % state.most);
  if (first !== state.first) change({ first });
  figures()[place - first]?.scrollIntoView({ block: "nearest" });
}

function step(pages) {
  const first = state.first + pages * state.most;
  if (first >= 0 && first < state.fitting.length) change({ first });
}

function showPager() {
  const last = Math.min(state.first + state.most, state.fitting.length);
  find(".pager").hidden = model.count < 2;
  find(".pager .shown").textContent = `${counted(state.first + 1)} to ${counted(last)} of ${counted(state.fitting.length)}`;
  find(".pager .before").disabled = state.first === 0;
  find(".pager .after").disabled = last === state.fitting.length;
  for (const input of document.querySelectorAll("input.number")) input.max = model.count;
}

function showMeant() {
  for (const input of document.querySelectorAll("input.number")) {
    if (input !== document.activeElement) input.value = state.meant === null ? "" : state.meant + 1;
  }
  if (state.meant !== null) bring(state.meant);
}

export function listenForPaging() {
  when(["fitting", "first"], showPager);
  when(["meant"], showMeant);
  find(".pager .before").addEventListener("click", () => step(-1));
  find(".pager .after").addEventListener("click", () => step(1));
  for (const input of document.querySelectorAll("input.number")) {
    input.addEventListener("input", () => {
      const number = numberIn(input.value);
      input.setAttribute("aria-invalid", Boolean(input.value) && number === null);
      change({ meant: number });
    });
  }
  document.addEventListener("keydown", (event) => {
    const pages = { ArrowLeft: -1, ArrowRight: 1 }[event.key];
    const isElsewhere = event.target.closest("canvas, .views, input, select, textarea, dialog, summary, [tabindex='0']");
    if (!pages || isElsewhere || event.ctrlKey || event.altKey || event.metaKey) return;
    event.preventDefault();
    step(pages);
  });
}
