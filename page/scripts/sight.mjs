// The canvas as a person uses it: wheel and pinch zoom, drag, click, and the same by keys.
import { readout } from "./answer.mjs";
import { draw } from "./drawing.mjs";
import { setGuide } from "./guiding.mjs";
import { goTo, play } from "./sequence.mjs";
import { changed, currentFrame, element, onRender, state } from "./state.mjs";
import { View } from "./view.mjs";
import { choosePixel, chooseStar } from "./work.mjs";

const STILL = 4;
const STEP = 1.25;
const view = new View();
const pointers = new Map();
let moved = 0;
let frameShown = null;
let under = null;
let atStar = -1;

export function startSight() {
  const canvas = element("frame");
  onRender(() => render(canvas));
  new ResizeObserver(() => resize(canvas)).observe(canvas);
  canvas.addEventListener("wheel", (event) => wheel(event), { passive: false });
  canvas.addEventListener("pointerdown", (event) => down(canvas, event));
  canvas.addEventListener("pointermove", (event) => move(event));
  for (const name of ["pointerup", "pointercancel"]) canvas.addEventListener(name, (event) => up(event, name === "pointerup"));
  canvas.addEventListener("keydown", keys);
  element("zoom-in").addEventListener("click", () => zoom(STEP));
  element("zoom-out").addEventListener("click", () => zoom(1 / STEP));
  element("fit").addEventListener("click", fit);
  element("stretch").addEventListener("change", (event) => {
    state.stretch = event.target.value;
    changed();
  });
  element("marks").addEventListener("change", (event) => {
    state.shown = event.target.checked;
    changed();
  });
}

function render(canvas) {
  const frame = currentFrame();
  const size = frame && `${frame.width} ${frame.height}`;
  if (frame && size !== frameShown) view.fit(frame);
  frameShown = size;
  draw(canvas, view);
  element("readout").textContent = under ? readout(under.row, under.column) : "";
}

function resize(canvas) {
  const ratio = window.devicePixelRatio || 1;
  const { clientWidth: wide, clientHeight: tall } = canvas;
  [canvas.width, canvas.height] = [Math.round(wide * ratio), Math.round(tall * ratio)];
  view.resize(wide, tall, currentFrame());
  changed();
}

function zoom(factor) {
  const { pixel } = state;
  if (pixel) view.zoom(factor, view.across(pixel.column), view.down(pixel.row));
  else view.zoom(factor);
  changed();
}

function fit() {
  if (currentFrame()) view.fit(currentFrame());
  changed();
}

function wheel(event) {
  event.preventDefault();
  view.zoom(Math.exp(-event.deltaY * (event.deltaMode ? 0.05 : 0.0015)), event.offsetX, event.offsetY);
  changed();
}

function down(canvas, event) {
  canvas.setPointerCapture?.(event.pointerId);
  pointers.set(event.pointerId, { x: event.offsetX, y: event.offsetY });
  if (pointers.size === 1) moved = 0;
}

function move(event) {
  under = view.at(event.offsetX, event.offsetY);
  element("readout").textContent = readout(under.row, under.column);
  const before = pointers.get(event.pointerId);
  if (!before) return;
  const now = { x: event.offsetX, y: event.offsetY };
  moved += Math.hypot(now.x - before.x, now.y - before.y);
  if (pointers.size === 2) pinch(event.pointerId, before, now);
  else if (moved > STILL) view.move(now.x - before.x, now.y - before.y);
  pointers.set(event.pointerId, now);
  if (moved > STILL) changed();
}

/** Two fingers: what is under their middle follows it, and grows with their distance. */
function pinch(id, before, now) {
  const other = [...pointers].find(([each]) => each !== id)[1];
  const apart = (a, b) => Math.hypot(a.x - b.x, a.y - b.y) || 1;
  view.zoom(apart(now, other) / apart(before, other), (now.x + other.x) / 2, (now.y + other.y) / 2);
  view.move((now.x - before.x) / 2, (now.y - before.y) / 2);
}

/** A pointer that hardly moved is a click: a guide, or the pixel that is asked about. */
function up(event, ended) {
  const alone = pointers.size === 1 && pointers.delete(event.pointerId);
  pointers.delete(event.pointerId);
  if (!ended || !alone || moved > STILL || !currentFrame()) return;
  const { column, row } = view.at(event.offsetX, event.offsetY);
  if (state.guiding.setting) setGuide(row, column, Math.max(4, 14 / view.scale));
  else ask(Math.round(row), Math.round(column));
}

function ask(row, column) {
  const { width, height } = currentFrame();
  if (row >= 0 && column >= 0 && row < height && column < width) choosePixel(row, column);
}

const ARROWS = { ArrowUp: [-1, 0], ArrowDown: [1, 0], ArrowLeft: [0, -1], ArrowRight: [0, 1] };

/** Arrows choose the pixel beside, with Shift ten farther; letters do what the buttons do. */
function keys(event) {
  if (!currentFrame() || event.ctrlKey || event.metaKey || event.altKey) return;
  const act = ARROWS[event.key] ? () => arrow(ARROWS[event.key], event.shiftKey ? 10 : 1) : KEYS[event.key.toLowerCase()];
  if (!act) return;
  event.preventDefault();
  act();
}

function arrow([down, right], times) {
  const { width, height } = currentFrame();
  const from = state.pixel ?? { row: Math.floor(height / 2) - down, column: Math.floor(width / 2) - right };
  choosePixel(from.row + times * down, from.column + times * right);
  view.show(state.pixel.row, state.pixel.column);
  under = state.pixel;
}

/** The next star of the list, or the one before. */
function star(by) {
  const stars = state.solution?.stars ?? [];
  if (!stars.length) return;
  atStar = (Math.min(atStar, stars.length - 1) + by + stars.length) % stars.length;
  chooseStar(stars[atStar]);
  view.show(state.pixel.row, state.pixel.column);
  under = state.pixel;
}

const KEYS = {
  "+": () => zoom(STEP),
  "=": () => zoom(STEP),
  "-": () => zoom(1 / STEP),
  f: fit,
  n: () => star(1),
  p: () => star(-1),
  g: () => state.pixel && setGuide(state.pixel.row, state.pixel.column, 4),
  m: () => element("marks").click(),
  ".": () => goTo(state.current + 1),
  ",": () => goTo(state.current - 1),
  " ": () => play(),
};
