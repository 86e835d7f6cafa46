// Up to four guides set by clicks, followed from frame to frame by the library's guider; boxes, misses, drops and offsets.
import { PIXEL, guidesOf } from "./library.mjs";
import { colour, plotOn, write } from "./pen.mjs";
import { runOf } from "./sequence.mjs";
import { changed, element, fillWith, make, onRender, state } from "./state.mjs";

const MOST = 4;
const DROPPED = 5;
const NO_NAME = 0xffffffff;
let path = { key: null, guiders: [] };

/** Sets a guide at the listed star nearest to a place, if one is near; the first one starts the guider at this frame. */
export function setGuide(row, column, reach) {
  const { guiding, solution } = state;
  const away = (star) => Math.hypot(star.row - row, star.column - column);
  const [near] = [...(solution?.stars ?? [])].sort((a, b) => away(a) - away(b));
  if (!near || away(near) > reach) return told("no listed star is near; guides are set at listed stars");
  if (guiding.start !== state.current) Object.assign(guiding, { start: state.current, guides: [] });
  const identity = near.identity ?? NO_NAME - near.number;
  if (guiding.guides.some((guide) => guide.identity === identity)) guiding.guides = guiding.guides.filter((guide) => guide.identity !== identity);
  else if (guiding.guides.length === MOST) return told("four guides are the most; a click on one takes it away");
  else guiding.guides.push({ identity, x: near.x, y: near.y });
  told(`${guiding.guides.length} of 4 guides, from frame ${guiding.start + 1} on`);
}

function told(text) {
  element("guides-told").textContent = text;
  changed();
}

/** The guider after a frame, from the frame it was started at; null before that. */
function guiderAt(place) {
  const { guiding, library } = state;
  if (!guiding.guides.length || place < guiding.start) return null;
  const halfWidth = Math.round(guiding.halfWidth * PIXEL);
  const key = [JSON.stringify(guiding.guides), guiding.start, halfWidth, state.settings.threshold, state.frames.length].join();
  if (path.key !== key) path = { key, guiders: [library.startGuider(halfWidth, guiding.guides).guider] };
  for (let k = path.guiders.length; k <= place - guiding.start; k++) {
    path.guiders.push(library.guide(path.guiders[k - 1], runOf(guiding.start + k).list.numbers).guider);
  }
  return path.guiders[place - guiding.start];
}

const pixels = ({ x, y }) => ({ column: x / PIXEL, row: y / PIXEL });
const guideName = (identity) => (identity > NO_NAME - 8 ? "no name" : String(identity));

/** For each guide its box before the frame that is shown, where it is after it, and a label. */
export function guideBoxes() {
  const after = guiderAt(state.current);
  if (!after) return [];
  const before = guiderAt(Math.max(state.guiding.start, state.current - 1));
  return guidesOf(after).map((guide, k) => ({
    box: { ...pixels(guidesOf(before)[k]), half: Number(after[0]) / PIXEL },
    place: pixels(guide),
    live: guide.misses < DROPPED,
    label: `${guideName(guide.identity)} ${wordOf(guide.misses)}`.trim(),
  }));
}

function wordOf(misses) {
  return misses >= DROPPED ? "dropped" : misses ? `missed ${misses}` : "";
}

export function startGuiding() {
  onRender(render);
  element("set-guides").addEventListener("change", (event) => {
    state.guiding.setting = event.target.checked;
    told(event.target.checked ? "click on listed stars, up to four; or choose a pixel on one and press G" : "");
  });
  element("clear-guides").addEventListener("click", () => {
    state.guiding.guides = [];
    told("no guides");
  });
  element("half-width").addEventListener("input", (event) => {
    state.guiding.halfWidth = Number(event.target.value);
    changed();
  });
}

function render() {
  element("half-width-told").textContent = `${state.guiding.halfWidth.toFixed(1)} pixels`;
  const after = guiderAt(state.current);
  const guides = after ? guidesOf(after) : [];
  fillWith(element("guides"), ...guides.map(row));
  element("offsets").hidden = element("offsets-told").hidden = !state.guiding.guides.length || state.frames.length < 2;
  if (!element("offsets").hidden && !element("panel-sequence").hidden) drawOffsets();
}

function row(guide, k) {
  const start = state.guiding.guides[k];
  const offset = ["x", "y"].map((axis) => make("td", { textContent: signed((guide[axis] - start[axis]) / PIXEL) }));
  const head = make("th", { scope: "row", className: `guide${k + 1}`, textContent: guideName(guide.identity) });
  return make("tr", {}, head, ...offset, make("td", { textContent: wordOf(guide.misses) || "follows" }));
}

const signed = (number) => (number < 0 ? "−" : "+") + Math.abs(number).toFixed(2);

/** Two plots, columns above and rows below: each guide's way from its start, with a dot at every miss. */
function drawOffsets() {
  const { context, wide, tall } = plotOn(element("offsets"));
  const { start } = state.guiding;
  const count = state.frames.length - start;
  const ways = Array.from({ length: count }, (_, k) => guidesOf(guiderAt(start + k)));
  ["x", "y"].forEach((axis, half) => {
    const offsets = ways.map((guides) => guides.map((guide, g) => (guide[axis] - state.guiding.guides[g][axis]) / PIXEL));
    const most = Math.max(1, ...offsets.flat().map(Math.abs));
    const middle = (tall * (1 + 2 * half)) / 4;
    const at = (k, offset) => [(wide * (k + 0.5)) / count, middle - (offset / most) * (tall / 4 - 12)];
    baseline(context, wide, middle, `${axis === "x" ? "columns" : "rows"}, ±${most.toFixed(1)} pixels`, tall / 4);
    state.guiding.guides.forEach((_, g) => way(context, offsets.map((each, k) => [...at(k, each[g]), ways[k][g].misses]), `guide${g + 1}`));
    context.fillStyle = colour("here");
    if (state.current >= start) context.fillRect(at(state.current - start, 0)[0] - 1, middle - tall / 4, 2, tall / 2);
  });
}

function baseline(context, wide, middle, label, room) {
  context.strokeStyle = colour("line");
  context.lineWidth = 1;
  context.strokeRect(0, middle, wide, 0);
  write(context, label, 6, middle - room + 9, "quiet");
}

function way(context, points, name) {
  context.strokeStyle = context.fillStyle = colour(name);
  context.lineWidth = 1.5;
  context.beginPath();
  for (const [x, y] of points) context.lineTo(x, y);
  context.stroke();
  for (const [x, y, misses] of points) if (misses) context.fillRect(x - 2, y - 2, 4, 4);
}
