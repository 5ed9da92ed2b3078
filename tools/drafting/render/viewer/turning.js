// From where all solids are seen: by buttons, arrow keys, mouse and touch.
import { change, state, when } from "./state.js";
import { camera, middle, radius, renderer } from "./scene.js";
import { redraw } from "./tiles.js";

const KEYS = { ArrowLeft: [10, 0], ArrowRight: [-10, 0], ArrowUp: [0, -10], ArrowDown: [0, 10] };
export const START = { right: -32, above: 27 };

/** Looks from so many degrees to the right of the front, and so many above it. */
export function look(right, above) {
  change({ right, above: Math.max(-90, Math.min(90, above)) });
}

function turnCamera() {
  for (const button of document.querySelectorAll("[data-view]")) {
    button.setAttribute("aria-pressed", button.dataset.view === `${state.right} ${state.above}`);
  }
  if (!renderer) return;
  const [a, e] = [state.right, state.above].map((angle) => (angle * Math.PI) / 180);
  const toRight = new THREE.Vector3(Math.cos(a), Math.sin(a), 0);
  const toViewer = new THREE.Vector3(Math.sin(a) * Math.cos(e), -Math.cos(a) * Math.cos(e), Math.sin(e));
  camera.matrixAutoUpdate = false;
  camera.matrix.makeBasis(toRight, new THREE.Vector3().crossVectors(toViewer, toRight), toViewer);
  camera.matrix.setPosition(toViewer.multiplyScalar(2 * radius).add(new THREE.Vector3(...middle)));
  camera.updateMatrixWorld(true);
  redraw();
}

export function listenForTurns() {
  when(["right", "above"], turnCamera);
  for (const button of document.querySelectorAll("[data-view]")) {
    button.addEventListener("click", () => look(...button.dataset.view.split(" ").map(Number)));
  }
  document.addEventListener("keydown", (event) => {
    if (!KEYS[event.key] || event.ctrlKey || event.altKey || event.metaKey || !event.target.closest("canvas, .views")) return;
    event.preventDefault();
    look(state.right + KEYS[event.key][0], state.above + KEYS[event.key][1]);
  });
  let from = [0, 0];
  document.addEventListener("pointerdown", (event) => {
    if (event.target.tagName !== "CANVAS") return;
    event.target.setPointerCapture(event.pointerId);
    from = [event.clientX, event.clientY];
  });
  document.addEventListener("pointermove", (event) => {
    if (!event.isPrimary || event.target.tagName !== "CANVAS" || !event.target.hasPointerCapture(event.pointerId)) return;
    look(state.right - (event.clientX - from[0]) / 2, state.above + (event.clientY - from[1]) / 2);
    from = [event.clientX, event.clientY];
  });
}
