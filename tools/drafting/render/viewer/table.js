// The drafting table: a drawing that is dropped in, or chosen, goes to the server of this machine, which is asked piece by piece for what is
// told of it. A page that is loaded anew comes back to its drawing; when it is closed, or has another one, the server ends this one.
import { state, when } from "./state.js";
import { buttonOf, find, many, spanOf } from "./pieces.js";
import { choiceOf, model } from "./model.js";
import { addToFigures, tiles } from "./tiles.js";
import { numberAt } from "./choices.js";
import { addBy } from "./settle.js";
import { giveBy } from "./said.js";
import { offerBack, resetPage, take } from "./page.js";

const TOKEN = new URLSearchParams(location.search).get("token") ?? "";
const MOST_FILE = 16 * 1024 * 1024;
// How often the server hears that the page is there; after how long without news it is asked less often. In milliseconds.
const ALIVE = 3000;
const PATIENT = 5000;
const SAVED_AS = { dxf: "its drawing, one line for each edge", stl: "its boundary as triangles", step: "its faces, by FreeCAD" };
// What may be said several times, with semicolons between.
const REPEATED = ["hidden", "visible", "leave-out"];
// The same sheet without hidden lines, by its name beside that of the whole one.
const VISIBLE = /\.visible\.dxf$/i;
const SECTIONS = "sections";
const SAVED_HERE = "made from its blocks, since its search isn't whole";

const table = { shown: null, key: "", name: "", began: 0 };

// ---- asking the server

function ask(path, body) {
  const headers = { "X-Draft-Token": TOKEN };
  if (!(body instanceof FormData)) {
    body = JSON.stringify({ job: table.key, ...body });
    headers["Content-Type"] = "application/json";
  }
  return fetch(path, { method: "POST", headers, body, cache: "no-store", keepalive: path === "/leave" });
}

/** What the server answers to a request; a refusal is told. */
async function answered(path, body) {
  try {
    const response = await ask(path, body);
    if (response.ok) {
      showFailure("");
      return response;
    }
    showFailure(`Not done: ${(await response.text()).trim()}.`);
  } catch (_) {
    showGone();
  }
  return null;
}

function showFailure(text) {
  const place = find(".failed");
  place.textContent = text;
  place.hidden = !text;
}

function showGone() {
  document.body.classList.add("gone");
  find(".progress").hidden = true;
  showFailure("The server has ended. What it told stays here, and can't be saved any more; start `draft serve` again for that.");
}

function showLost() {
  find(".progress").hidden = true;
  showFailure("The server has put this drawing away, since its page was left for long: choose it again to save something of it.");
}

// ---- a drawing

/** The field of the form in which an option is said. */
function fieldOf(name) {
  return find(".options form").elements[name];
}

/** What is said in a field. */
function saidIn({ name, value }) {
  return (REPEATED.includes(name) ? value.split(";") : [value]).map((one) => one.trim()).filter(Boolean);
}

/** How the drawing is to be read, as it is said in the form. */
function optionsNow() {
  const options = [];
  for (const field of find(".options form").elements) {
    if (field.type === "checkbox" && field.checked) options.push(field.name);
    else if (field.name && !["checkbox", "file", "submit"].includes(field.type)) options.push(...saidIn(field).map((one) => [field.name, one]));
  }
  return options;
}

/** Takes a drawing that is new here, and where it is there the same sheet without hidden lines. What was said of the drawing before it is none
 *  of this one, which is read by the defaults; what was said before there was a drawing is. */
function showNew(file, second) {
  if (table.name) find(".options form").reset();
  if (second) fieldOf("second").files = filesOf(second);
  showFile(file);
}

/** A list of files as an input has it. */
function filesOf(file) {
  const list = new DataTransfer();
  list.items.add(file);
  return list.files;
}

/** Takes what was dropped or chosen together: one drawing, or a sheet with its export without hidden lines. */
function showAny(files) {
  const [whole, second] = [...files].sort((a, b) => VISIBLE.test(a.name) - VISIBLE.test(b.name));
  if (files.length === 1) return showNew(files[0]);
  if (files.length === 2 && VISIBLE.test(second.name) && whole.name.toLowerCase() === second.name.replace(VISIBLE, ".dxf").toLowerCase()) {
    return showNew(whole, second);
  }
  const names = Array.from(files, ({ name }) => name).join(", ");
  if (files.length) showFailure(`Not taken: one drawing at a time is read, and these are ${files.length}: ${names}. A sheet NAME.dxf and the same sheet
    without hidden lines, NAME.visible.dxf, are taken together.`);
}

/** Sends a drawing, and shows what is told of it. */
function showFile(file) {
  find(".given").hidden = true;
  table.shown = file;
  return send(file, file.name, optionsNow(), find("[name=second]").files[0]);
}

/** Sends a drawing that is made of the one that is shown, with its sections or without. It needs none of what is said of a sheet. */
function showMade(text, words, withSections = false) {
  const options = optionsNow().filter(([name]) => ["solids", "nodes"].includes(name));
  send(new File([text], "made.dxf"), `${stem()}, ${words}`, withSections ? [...options, SECTIONS] : options);
}

/** Has the drawing that is shown be read again, with its sections or without. */
function showAgain(file, withSections) {
  fieldOf(SECTIONS).checked = withSections;
  showFile(file);
}

async function showSuggested(suggestion) {
  const back = table.shown;
  showMade(suggestion.dxf, "as suggested");
  offerBack(suggestion, () => showFile(back));
}

function leave(forGood) {
  if (table.key) ask("/leave", { for_good: forGood }).catch(() => {});
}

function showName(name) {
  table.name = name;
  find("h1").textContent = document.title = name;
  history.replaceState(null, "", `${location.pathname}${location.search}#${encodeURIComponent(name)}`);
  document.body.classList.add("has-drawing");
}

async function send(file, name, options, second) {
  leave(true);
  resetPage();
  Object.assign(table, { key: "", began: performance.now() });
  const began = table.began;
  showName(name);
  showFailure("");
  find(".kept").hidden = true;
  if (file.size > MOST_FILE || second?.size > MOST_FILE) return showFailure("Not taken: a drawing has 16 MiB at most.");
  showProgress("Sent");
  const body = new FormData();
  body.append("options", JSON.stringify(options));
  body.append("drawing", file, name);
  if (second) body.append("visible", second, second.name);
  try {
    const response = await ask("/drawing", body);
    if (table.began !== began) return;
    if (!response.ok) return finish(`Not taken: ${(await response.text()).trim()}.`);
    const { job } = await response.json();
    if (table.began !== began) return ask("/leave", { job, for_good: true });
    await follow(job);
  } catch (_) {
    if (table.began === began) showGone();
  }
}

/** Takes what is told of a drawing, a line an event, until it is over; and then says now and then that the page is there. */
async function follow(job) {
  table.key = job;
  sessionStorage.setItem("job", job);
  const decoder = new TextDecoder();
  let [from, rest, heard, isOver] = [0, "", performance.now(), false];
  for (;;) {
    const response = await ask("/events", { job, from });
    if (table.key !== job) return;
    if (!response.ok) return response.status === 404 ? showLost() : finish(`Not told: ${(await response.text()).trim()}.`);
    const bytes = await response.arrayBuffer();
    if (table.key !== job) return;
    from += bytes.byteLength;
    const lines = (rest + decoder.decode(bytes, { stream: true })).split("\n");
    rest = lines.pop();
    for (const line of lines) if (line) isOver = takeTold(JSON.parse(line)) || isOver;
    if (bytes.byteLength) heard = performance.now();
    const pause = isOver ? ALIVE : performance.now() - heard > PATIENT ? 500 : 0;
    if (pause) await new Promise((done) => setTimeout(done, pause));
  }
}

/** Tells the server that this page is there, and comes back to the drawing that it had before it was loaded anew, while that is there. */
async function come() {
  const name = decodeURIComponent(location.hash.slice(1));
  const job = (name && sessionStorage.getItem("job")) || "";
  table.key = job;
  const response = await ask("/here", {}).catch(() => null);
  if (response?.status !== 200 || table.key !== job) return;
  table.shown = new File([await response.blob()], name);
  table.began = performance.now();
  resetPage();
  showName(name);
  follow(job).catch(showGone);
}

/** Has the form say what was asked. */
function showOptions(options) {
  for (const option of options) {
    const [name, value] = Array.isArray(option) ? option : [option];
    const field = fieldOf(name);
    if (field?.type === "checkbox") field.checked = true;
    else if (field) field.value = REPEATED.includes(name) ? [...new Set([...saidIn(field), value])].join("; ") : value;
  }
}

/** Offers to have the sections be read that weren't. */
function offerSections() {
  find(".warnings").lastElementChild.append(" ", buttonOf("Read it with its sections", () => showAgain(table.shown, true)));
}

const TOLD = {
  said: ({ unread }) => unread && offerSections(),
  job: ({ options }) => showOptions(options),
  queued: ({ before }) => showProgress(before ? `Waiting: ${before} before this one` : "Waiting for its turn"),
  began: () => showProgress("Reading"),
  grid: () => showProgress("Searching"),
  end: ({ how, option, ways }) => showEnd(how, option, ways ?? []),
  looking: () => showProgress("Looking for what is wrong"),
  looked: () => finish(),
  over: ({ text }) => finish(text && `It ended: ${text}.`),
};

/** Takes an event, and answers whether it is the last one. */
function takeTold(event) {
  take(event);
  TOLD[event.kind]?.(event);
  return event.kind === "over";
}

/** Offers what may be said of a drawing that may be taken in several ways: it is read again so. */
function showWays(option, ways) {
  const place = Object.assign(document.createElement("p"), { className: "acts ways" });
  const field = fieldOf(option);
  place.append(`${field.labels[0].firstChild.textContent.trim()}: `);
  for (const way of ways) {
    place.append(buttonOf(way, () => {
      field.value = REPEATED.includes(option) ? [...saidIn(field), way].join("; ") : way;
      showFile(table.shown);
    }));
  }
  find(".told").append(place);
}

// ---- how far it is

function showProgress(text) {
  find(".progress").hidden = false;
  find(".progress .state").textContent = text;
}

function showTime() {
  if (find(".progress").hidden) return;
  const seconds = ((performance.now() - table.began) / 1000).toFixed(1);
  find(".progress .time").textContent = `${model.count ? `${many(model.count, "solid")} so far, ` : ""}${seconds} s`;
}

function showEnd(how, option, ways) {
  if (ways.length) showWays(option, ways);
  if (["fault", "refused"].includes(how)) finish();
  else showProgress("Looking at what was found");
}

/** The search is over; where something is to be said of that, it is. */
function finish(text) {
  find(".progress").hidden = true;
  if (text) showFailure(text);
  find(".kept").hidden = !find(".drawing svg");
}

// ---- files

function saveAs(blob, name) {
  const link = Object.assign(document.createElement("a"), { href: URL.createObjectURL(blob), download: name });
  link.click();
  setTimeout(() => URL.revokeObjectURL(link.href), 60000);
}

function stem() {
  return table.name.replace(/\.dxf$/i, "").replace(/[^\p{L}\p{N}._-]+/gu, "_").replace(/^\.+/, "") || "drawing";
}

async function saveSolid(number, form, button) {
  button.disabled = true;
  const response = await answered("/solid", { number: number + 1, form, choice: choiceOf(number) });
  if (response) saveAs(await response.blob(), `${stem()}_${number + 1}.${form}`);
  button.disabled = false;
}

/** Buttons by which a solid is saved, once its search has ended. */
function saves(numberNow) {
  const place = spanOf("saves", "Save: ");
  for (const form of Object.keys(SAVED_AS)) {
    const button = buttonOf(form.toUpperCase(), () => saveSolid(numberNow(), form, button));
    button.dataset.form = form;
    place.append(button);
  }
  return place;
}

/** Says of each Save what it writes. */
function showSaves() {
  document.body.classList.toggle("can-save", ["whole", "cut", "stopped"].includes(state.how));
  for (const button of document.querySelectorAll("[data-form]")) {
    button.title = state.how === "whole" ? SAVED_AS[button.dataset.form] : `${SAVED_AS[button.dataset.form]}; ${SAVED_HERE}`;
  }
  for (const button of document.querySelectorAll("#large [data-form]")) {
    button.setAttribute("aria-label", state.large === null ? "" : `Save solid ${state.large + 1} as ${button.textContent}`);
  }
}

async function savePage() {
  const response = await answered("/page", {});
  if (response) saveAs(await response.blob(), `${stem()}.html`);
}

// ---- lines to be added

/** What is told of the lines to be added for a solid, by some views or by the fewest. */
async function toldAdded(number, views) {
  const response = await answered("/settle", { number: number + 1, views });
  return response?.json();
}

const ADDING = {
  told: toldAdded,
  save: async (number, views) => {
    const told = await toldAdded(number, views);
    if (told) saveAs(new Blob([told.dxf]), `${stem()}_with_${views.join("_") || "lines"}.dxf`);
  },
  read: async (number, views) => {
    const told = await toldAdded(number, views);
    const [back, withSections] = [table.shown, fieldOf(SECTIONS).checked];
    if (!told) return;
    showMade(told.dxf, `with ${views.join(" and ") || "lines"} of solid ${number + 1}`, told.sections);
    offerBack({ words: told.lines }, () => showAgain(back, withSections));
  },
};

// ---- what a person does

function listenForFiles() {
  const input = document.getElementById("file");
  find(".choose").addEventListener("click", () => input.click());
  input.addEventListener("change", () => {
    showAny([...input.files]);
    input.value = "";
  });
  for (const button of document.querySelectorAll("[data-example]")) {
    button.addEventListener("click", async () => {
      const response = await answered("/example", { name: button.dataset.example });
      if (response) showNew(new File([await response.blob()], `${button.dataset.example}.dxf`));
    });
  }
  document.addEventListener("dragover", (event) => {
    event.preventDefault();
    document.body.classList.add("dragged");
  });
  document.addEventListener("dragleave", (event) => {
    if (!event.relatedTarget) document.body.classList.remove("dragged");
  });
  document.addEventListener("drop", (event) => {
    event.preventDefault();
    document.body.classList.remove("dragged");
    showAny(event.dataTransfer.files);
  });
}

/** Has the browser make ready what draws, before there is something to be drawn, since that takes it a while: by a cell that is gone again
 *  before it is seen. */
function prepareDrawing() {
  if (table.key || table.began) return;
  take({ kind: "grid", cuts: [[0, 1], [0, 1], [0, 1]], cells: [[0, 1], [-1, 7]], blocks: 1, units: { per: [1, 1], unit: "" } });
  take({ kind: "solids", choices: ["8"] });
  take({ kind: "end", how: "whole", html: "" });
  tiles[0]?.draw();
  resetPage();
}

function listenAtTable() {
  listenForFiles();
  giveBy({ isServed: true, show: showSuggested });
  addBy(ADDING);
  addToFigures((at) => saves(() => numberAt(at)));
  find("#large .acts").append(saves(() => state.large));
  when(["how", "large"], showSaves);
  document.body.classList.add("served");
  find(".stop").addEventListener("click", () => answered("/stop", {}));
  find(".options form").addEventListener("submit", (event) => {
    event.preventDefault();
    if (table.shown) showFile(table.shown);
    else showFailure("First choose a drawing.");
  });
  find(".save-page").addEventListener("click", savePage);
  window.addEventListener("pagehide", () => leave(false));
  setInterval(showTime, 100);
  setTimeout(prepareDrawing);
  come();
}

listenAtTable();
