// Pieces of the page that several of its parts are made of.

export function find(place) {
  return document.querySelector(place);
}

export function spanOf(kind, text) {
  return Object.assign(document.createElement("span"), { className: kind, textContent: text });
}

export function buttonOf(text, act, kind = "") {
  const button = Object.assign(document.createElement("button"), { type: "button", textContent: text, className: kind });
  button.addEventListener("click", act);
  return button;
}

// Made with the page: a browser's first one takes it a while.
const english = new Intl.NumberFormat("en");

/** A count in figures. */
export function counted(count) {
  return english.format(count);
}

/** A count with its noun. */
export function many(count, noun) {
  return `${counted(count)} ${noun}${count === 1 ? "" : "s"}`;
}

/** Puts a text where it can be pasted from, and says so on the button for a moment. */
export async function copyBy(button, text) {
  const was = button.textContent;
  try {
    await navigator.clipboard.writeText(text);
    button.textContent = "Copied";
  } catch (_) {
    button.textContent = "The browser forbids it";
  }
  setTimeout(() => (button.textContent = was), 1500);
}
