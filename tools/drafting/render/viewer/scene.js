// The solids in three dimensions. One renderer draws them all, one after another, seen from the same side, and each picture is copied
// to the canvas of its solid. THREE is three.js, which stands before this as a script of its own.
import { cutAt, model, rankOf } from "./model.js";

// The colours of the kinds of cells, as the page's style names them: those that all solids have, most of them, and half or fewer; and of the
// six outward directions how light each is.
const KINDS = ["--plain", "--most", "--few"];
const FEW = 2;
// How many lines of a hatch there are along the largest radius.
const HATCHED = 16;
const SHADES = [0.72, 0.8, 0.88, 0.78, 0.6, 1];

// ---- what is drawn of them

/** The point at a cell's corner, which is told by a 0 or 1 along each axis, between coordinates of each axis. */
function cornerOf(cuts, place, corner) {
  return corner.map((beyond, axis) => cuts[axis][rankOf(place, axis) + beyond]);
}

/** The corners of a cell's side in the order in which they run to the left, seen from outside. */
function sideOf(cuts, place, axis, side) {
  const around = [[0, 0], [1, 0], [1, 1], [0, 1]].map(([u, v]) => {
    const corner = [0, 0, 0];
    corner[axis] = side;
    corner[(axis + 1) % 3] = u;
    corner[(axis + 2) % 3] = v;
    return cornerOf(cuts, place, corner);
  });
  return side ? around : around.reverse();
}

/** The surface of a set of cells, in groups: by the cells' kinds, and of each by outward direction, -x, +x, -y and so on. */
function surfaceOf(cells, kinds, cuts) {
  const points = [];
  const groups = Array.from({ length: 6 * KINDS.length }, () => []);
  cells.forEach((full, place) => {
    for (let way = 0; full && way < 6; way++) {
      const [axis, side] = [way >> 1, way & 1];
      if (cells[place + (side ? 1 : -1) * model.strides[axis]]) continue;
      const first = points.length / 3;
      points.push(...sideOf(cuts, place, axis, side).flat());
      groups[way + 6 * kinds[place]].push(first, first + 1, first + 2, first, first + 2, first + 3);
    }
  });
  const geometry = new THREE.BufferGeometry();
  geometry.setAttribute("position", new THREE.Float32BufferAttribute(points, 3));
  let start = 0;
  groups.forEach((group, number) => {
    geometry.addGroup(start, group.length, number);
    start += group.length;
  });
  geometry.setIndex(groups.flat());
  return geometry;
}

/** Whether the stretch from a place on along an axis is an edge: not all four cells around it alike, nor two beside two. */
function isEdge(cells, place, axis) {
  const u = model.strides[(axis + 1) % 3];
  const v = model.strides[(axis + 2) % 3];
  const a = cells[place] | 0;
  const b = cells[place - u] | 0;
  const c = cells[place - u - v] | 0;
  const d = cells[place - v] | 0;
  return !(a === b && c === d) && !(a === d && b === c);
}

/** The edges of a set of cells, stretch by stretch. */
function edgesOf(cells, cuts) {
  const ends = [];
  for (let place = 0; place < model.places; place++) {
    for (let axis = 0; axis < 3; axis++) {
      if (!isEdge(cells, place, axis)) continue;
      const far = [0, 0, 0];
      far[axis] = 1;
      ends.push(...cornerOf(cuts, place, [0, 0, 0]), ...cornerOf(cuts, place, far));
    }
  }
  return new THREE.LineSegmentsGeometry().setPositions(ends);
}

/** The hatch of those cells of a set that a plane cuts: lines along which one coordinate grows as the other does, the same over all cells. */
function hatchOf(cells, cuts, { axis, at }, layer) {
  const [u, v] = [(axis + 1) % 3, (axis + 2) % 3];
  const step = radius / HATCHED;
  const ends = [];
  cells.forEach((full, place) => {
    if (!full || rankOf(place, axis) !== layer) return;
    const [low, high] = [[0, 0, 0], [1, 1, 1]].map((corner) => cornerOf(cuts, place, corner));
    for (let number = Math.ceil((low[u] - high[v]) / step); number * step < high[u] - low[v]; number++) {
      const less = number * step;
      for (const along of [Math.max(low[u], low[v] + less), Math.min(high[u], high[v] + less)]) {
        const end = [at, at, at];
        [end[u], end[v]] = [along, along - less];
        ends.push(...end);
      }
    }
  });
  return new THREE.LineSegmentsGeometry().setPositions(ends);
}

// ---- what is drawn of one that is rounded back

/** How light a surface is that looks this way: each axis has its share of it. */
function shadeOf(normal) {
  return normal.reduce((shade, along, axis) => shade + along * along * SHADES[2 * axis + (along > 0)], 0);
}

/** Its faces, each with points of its own, so that it is smooth within and sharp at its rim. */
function facesOf({ points, triangles }) {
  const geometry = new THREE.BufferGeometry();
  geometry.setAttribute("position", new THREE.Float32BufferAttribute(points, 3));
  geometry.setIndex(triangles);
  geometry.computeVertexNormals();
  const { array } = geometry.getAttribute("normal");
  const shades = Array.from(array, (_, at) => shadeOf([0, 1, 2].map((axis) => array[at - (at % 3) + axis])));
  geometry.setAttribute("color", new THREE.Float32BufferAttribute(shades, 3));
  return geometry;
}

/** Its edges, stretch by stretch. */
function stretchesOf({ edges }) {
  const ends = [];
  for (const way of edges) for (let at = 0; at + 5 < way.length; at += 3) ends.push(...way.slice(at, at + 6));
  return new THREE.LineSegmentsGeometry().setPositions(ends);
}

// ---- colours

function faceMaterials(options) {
  return Array.from({ length: 6 * KINDS.length }, () => new THREE.MeshBasicMaterial(options));
}

let solidFaces, plainFaces, clearFaces, roundFaces, clearRound, edgeLines, lightLines, faintLines, hatchLines;
export let camera;
export let renderer = null;

/** Makes what draws, once there is something to be drawn; answers whether the browser can. */
export function startDrawing() {
  if (renderer) return true;
  try {
    renderer = new THREE.WebGLRenderer({ antialias: true, alpha: true });
  } catch (_) {
    return false;
  }
  solidFaces = faceMaterials({ polygonOffset: true, polygonOffsetFactor: 1, polygonOffsetUnits: 1 });
  plainFaces = solidFaces.map((_, number) => solidFaces[number % 6]);
  clearFaces = faceMaterials({ transparent: true, opacity: 0.16, depthWrite: false });
  roundFaces = new THREE.MeshBasicMaterial({ vertexColors: THREE.VertexColors, polygonOffset: true, polygonOffsetFactor: 1, polygonOffsetUnits: 1 });
  clearRound = new THREE.MeshBasicMaterial({ vertexColors: THREE.VertexColors, transparent: true, opacity: 0.16, depthWrite: false });
  edgeLines = new THREE.LineMaterial();
  // Before the edges of all, and behind the edges of marked cells, where both are at the same place.
  lightLines = new THREE.LineMaterial({ polygonOffset: true, polygonOffsetFactor: -2, polygonOffsetUnits: -2 });
  faintLines = new THREE.LineMaterial({ polygonOffset: true, polygonOffsetFactor: 2, polygonOffsetUnits: 2 });
  hatchLines = new THREE.LineMaterial();
  camera = new THREE.OrthographicCamera();
  takeColours();
  return true;
}

/** Takes the colours from the page's style, which has them for light and dark. */
export function takeColours() {
  const style = getComputedStyle(document.documentElement);
  const colour = (name) => new THREE.Color(style.getPropertyValue(name).trim());
  solidFaces.forEach((material, number) => {
    material.color = colour(KINDS[Math.floor(number / 6)]).multiplyScalar(SHADES[number % 6]);
    clearFaces[number].color = colour("--faint").multiplyScalar(SHADES[number % 6]);
  });
  roundFaces.color = colour(KINDS[0]);
  clearRound.color = colour("--faint");
  edgeLines.color = hatchLines.color = colour("--edge");
  lightLines.color = colour("--edge-light");
  faintLines.color = colour("--faint");
}

// ---- tiles

export let middle = [0, 0, 0];
export let radius = 1;

/** Has the camera see all of the grid, from any side. */
export function frameGrid() {
  middle = model.cuts.map((cut) => (cut[0] + cut[cut.length - 1]) / 2);
  radius = Math.hypot(...model.cuts.map((cut) => cut[cut.length - 1] - cut[0])) / 2;
  Object.assign(camera, { left: -radius, right: radius, top: radius, bottom: -radius, near: radius / 2, far: 4 * radius });
  camera.updateProjectionMatrix();
}

function hasLines({ geometry }) {
  return geometry.attributes.instanceStart?.count > 0;
}

/** A canvas that shows a solid, whose cells are of several kinds, or one that is rounded back, by its shape. */
export class Tile {
  constructor(canvas) {
    this.canvas = canvas;
    this.cells = this.kinds = this.shape = null;
    this.scene = null;
    // Whether it is on the screen, once that is told.
    this.isSeen = null;
    this.through = false;
    this.coloured = true;
    this.zoom = 1;
  }

  /** Shows these cells, or the shape in place of them; or what a plane leaves of the cells. */
  show(cells, kinds, shape = null, plane = null) {
    this.scene?.traverse((part) => part.geometry?.dispose());
    this.scene = null;
    Object.assign(this, { cells, kinds, plane, shape: plane ? null : shape, cuts: model.cuts }, plane && cutAt(plane, cells));
  }

  /** Makes what is drawn: the solid's surface and edges, and those of its cells of other kinds than the first; and the hatch of what is cut. */
  build() {
    const marked = this.cells.map((full, place) => full & (this.kinds[place] > 0));
    const few = this.cells.map((full, place) => full & (this.kinds[place] === FEW));
    const others = this.cells.map((full, place) => full & (this.kinds[place] !== FEW));
    this.skin = new THREE.Mesh(this.shape ? facesOf(this.shape) : surfaceOf(this.cells, this.kinds, this.cuts));
    this.lines = new THREE.LineSegments2(this.shape ? stretchesOf(this.shape) : edgesOf(this.cells, this.cuts));
    this.marks = new THREE.Mesh(surfaceOf(marked, this.kinds, this.cuts), solidFaces);
    this.markLines = new THREE.LineSegments2(edgesOf(few, this.cuts), lightLines);
    this.hatches = [others, few].map((cells) => new THREE.LineSegments2(hatchOf(this.plane ? cells : [], this.cuts, this.plane ?? {}, this.layer)));
    this.scene = new THREE.Scene();
    this.scene.add(this.skin, this.lines, this.marks, this.markLines, ...this.hatches);
  }

  /** Shows the cells of other kinds within, through clear faces, or the solid as it looks from outside. The darkest kind has light edges. */
  dress() {
    const faces = this.coloured ? solidFaces : plainFaces;
    this.skin.material = this.shape ? (this.through ? clearRound : roundFaces) : this.through ? clearFaces : faces;
    this.lines.material = this.through ? faintLines : edgeLines;
    const isMarked = !this.shape && this.marks.geometry.index.count > 0 && this.coloured;
    this.marks.visible = isMarked && this.through;
    this.markLines.visible = isMarked && hasLines(this.markLines);
    for (const hatch of this.hatches) hatch.visible = hasLines(hatch);
    this.hatches[0].material = hatchLines;
    this.hatches[1].material = this.coloured ? lightLines : hatchLines;
  }

  draw() {
    const scale = window.devicePixelRatio || 1;
    const size = Math.round(this.canvas.clientWidth * scale);
    if (!size || !this.cells) return;
    if (!this.scene) this.build();
    this.dress();
    if (this.canvas.width !== size) this.canvas.width = this.canvas.height = size;
    if (Math.min(renderer.domElement.width, renderer.domElement.height) < size) renderer.setSize(size, size, false);
    for (const [lines, width] of [[edgeLines, 1.6], [lightLines, 1.4], [faintLines, 1], [hatchLines, 0.9]]) {
      lines.resolution.set(size, size);
      lines.linewidth = width * scale;
    }
    if (camera.zoom !== this.zoom) {
      camera.zoom = this.zoom;
      camera.updateProjectionMatrix();
    }
    renderer.setViewport(0, 0, size, size);
    renderer.render(this.scene, camera);
    const flat = this.canvas.getContext("2d");
    flat.clearRect(0, 0, size, size);
    flat.drawImage(renderer.domElement, 0, renderer.domElement.height - size, size, size, 0, 0, size, size);
    if (this.canvas.clientWidth >= 200) drawAxes(flat, scale, size);
  }
}

/** The directions of the three axes, in the lower left corner. */
function drawAxes(flat, scale, size) {
  const [length, x, y] = [15 * scale, 24 * scale, size - 24 * scale];
  flat.strokeStyle = flat.fillStyle = getComputedStyle(document.documentElement).getPropertyValue("--muted");
  flat.lineWidth = 1.2 * scale;
  flat.font = `${10 * scale}px system-ui, Helvetica, Arial, sans-serif`;
  flat.textAlign = "center";
  flat.textBaseline = "middle";
  ["x", "y", "z"].forEach((name, axis) => {
    const [right, up] = [0, 1].map((row) => camera.matrixWorld.elements[4 * row + axis]);
    if (Math.hypot(right, up) < 0.2) return;
    flat.beginPath();
    flat.moveTo(x, y);
    flat.lineTo(x + length * right, y - length * up);
    flat.stroke();
    flat.fillText(name, x + 1.5 * length * right, y - 1.5 * length * up);
  });
}
