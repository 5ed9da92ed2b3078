// What is said beside the solids: what was changed, found or left out of a sheet; and what would have to be drawn otherwise, where no solid
// has the views.
import { buttonOf, find } from "./pieces.js";

// What a page of a server does with a suggestion, and what a file does.
let giving = null;
let suggestions = 0;

export function giveBy(acts) {
  giving = acts;
}

export function showSaid(text) {
  const warning = /^warning: /.test(text);
  const list = find(warning ? ".warnings" : ".said ul");
  const row = document.createElement(warning ? "div" : "li");
  row.className = warning ? "notice" : "";
  const words = text.replace(/^warning: /, "");
  row.textContent = warning ? `${words[0].toUpperCase()}${words.slice(1)}.` : words;
  list.append(row);
  const said = document.querySelectorAll(".said li").length;
  find(".said").hidden = !said;
  find(".said summary").textContent = `What was found, changed or left out: ${said}`;
}

// ---- what is wrong

export function showLooking(text) {
  find("#why").hidden = false;
  find("#why .state").textContent = text;
}

/** A change by which some solid has the views, with a button for what it gives. The first one is told in the verdict too. */
export function showSuggestion(suggestion) {
  suggestions++;
  const row = document.createElement("li");
  for (const words of suggestion.words) row.append(Object.assign(document.createElement("p"), { textContent: words }));
  const place = buttonOf("Where", () => markSuggestion(row, suggestion), "where");
  place.setAttribute("aria-label", `Show where: ${suggestion.words[0]}`);
  row.append(place);
  if (suggestion.events || giving.isServed) row.append(buttonOf("Show what it gives", () => giving.show(suggestion)));
  find("#why ol").append(row);
  if (suggestions > 1) return;
  markSuggestion(row, suggestion);
  const then = find(".told .impossible .then");
  if (then) then.textContent = `Look at ${suggestion.words.join("; ")}.`;
}

/** Shows the views with the place of a suggestion in another colour. */
function markSuggestion(row, suggestion) {
  find(".drawing").innerHTML = suggestion.html;
  find(".drawing").insertAdjacentHTML("beforeend",
    '<p class="muted measured"></p><p class="muted">Broad, in another colour: what would have to be drawn otherwise.</p>');
  for (const button of document.querySelectorAll("#why .where")) button.setAttribute("aria-pressed", button.parentElement === row);
}

// ---- lengths in the views

/** Tells the length of the line of a view that is pointed at. */
export function listenForLengths() {
  const tell = (event) => {
    const line = event.target.closest?.("[data-told]");
    const place = find(".drawing .measured");
    if (place && (line || event.type === "click")) place.textContent = line?.dataset.told ?? "";
  };
  for (const kind of ["click", "pointerover"]) find(".drawing").addEventListener(kind, tell);
}

export function resetSaid() {
  suggestions = 0;
  for (const place of [".warnings", ".said ul", "#why ol"]) find(place).replaceChildren();
  for (const part of [".said", "#why", ".alike"]) find(part).hidden = true;
}
