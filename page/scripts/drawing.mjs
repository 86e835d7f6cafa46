// Draws the frame and the marks on it. Each kind of mark has a shape and a colour of its own; the style sheet has the colours.
import { kindsNow } from "./changes.mjs";
import { guideBoxes } from "./guiding.mjs";
import { colour, stroke, write } from "./pen.mjs";
import { compass, inside, projected } from "./sky.mjs";
import { currentFrame, state } from "./state.mjs";
import { picture } from "./stretch.mjs";

let shown = { key: null, canvas: null };
let ground = { key: null, canvas: null };

/** Draws the canvas anew. */
export function draw(canvas, view) {
  const frame = currentFrame();
  const ratio = window.devicePixelRatio || 1;
  const context = canvas.getContext("2d");
  context.setTransform(1, 0, 0, 1, 0, 0);
  context.drawImage(groundOf(frame, canvas, view, ratio), 0, 0);
  if (!frame) return;
  context.setTransform(ratio, 0, 0, ratio, 0, 0);
  const pen = { context, view, ring: Math.max(9, 3.5 * view.scale) };
  if (state.shown) {
    drawCatalogue(pen);
    drawPeaks(pen);
    for (const star of state.solution?.stars ?? []) drawStar(pen, star);
    drawGuides(pen);
    drawCompass(pen);
  }
  drawAsked(pen);
}

/** What lies below the marks, as it was where frame, light and view are the same: scaling a large frame takes longer than all the rest. */
function groundOf(frame, { width, height }, view, ratio) {
  const key = [frame?.serial, state.stretch, document.documentElement.className, width, height, view.scale, view.left, view.top].join();
  if (ground.key === key) return ground.canvas;
  const canvas = ground.canvas ?? document.createElement("canvas");
  [canvas.width, canvas.height] = [Math.max(1, width), Math.max(1, height)];
  const context = canvas.getContext("2d");
  context.setTransform(ratio, 0, 0, ratio, 0, 0);
  context.fillStyle = colour("sky");
  context.fillRect(0, 0, view.wide, view.tall);
  if (frame) drawFrame(context, frame, view);
  ground = { key, canvas };
  return canvas;
}

function drawFrame(context, frame, view) {
  const [wide, tall] = [view.scale * frame.width, view.scale * frame.height];
  context.imageSmoothingEnabled = view.scale < 1;
  context.drawImage(pictureOf(frame), view.left, view.top, wide, tall);
  context.strokeStyle = colour("line");
  context.lineWidth = 1;
  context.strokeRect(view.left - 0.5, view.top - 0.5, wide + 1, tall + 1);
}

/** The frame's samples as a picture, which only frame, stretch and light change. */
function pictureOf(frame) {
  const red = document.documentElement.classList.contains("red");
  const key = [frame.serial, state.stretch, red].join();
  if (shown.key !== key) shown = { key, canvas: picture(frame, state.measured, state.stretch, red) };
  return shown.canvas;
}

function drawStar({ context, view, ring }, star) {
  const kind = star.record === null ? "unnamed" : "named";
  const [x, y] = [view.across(star.column), view.down(star.row)];
  stroke(context, kind, x, y, ring);
  const left = x > view.wide - 110;
  write(context, `${star.number}: ${star.identity ?? "–"}`, x + (left ? -1 : 1) * (ring + 5), y, kind, left ? "right" : "left");
}

/** Edge and lone pixels, and measured ones beyond the list. */
function drawPeaks({ context, view }) {
  const { marks, solution } = state;
  if (!marks) return;
  const listed = new Set(solution.stars.map((star) => `${star.x} ${star.y}`));
  const kinds = { edge: marks.edge, lone: marks.lone, unlisted: marks.measured.filter(({ x, y }) => !listed.has(`${x} ${y}`)) };
  for (const [kind, places] of Object.entries(kinds)) {
    for (const { row, column } of places) stroke(context, kind, view.across(column), view.down(row), 7);
  }
}

/** Catalogue stars where the attitude puts them, by kind: in use, new or changed in the one in use, and gone or changed of the one before. */
export function catalogueStars() {
  const { solution, settings, catalogue, before } = state;
  const found = { catalogue: [], added: [], removed: [] };
  if (!solution?.rows) return found;
  const kinds = kindsNow();
  const put = (kind, { vector }) => {
    const place = projected(solution.rows, vector, settings);
    if (inside(place, settings)) found[kind].push(place);
  };
  for (const star of catalogue.stars) put(kinds.has(star.identity) ? "added" : "catalogue", star);
  for (const star of before?.stars ?? []) if (kinds.has(star.identity)) put("removed", star);
  return found;
}

function drawCatalogue({ context, view }) {
  const sizes = { removed: 9, added: 6, catalogue: 5 };
  for (const [kind, places] of Object.entries(catalogueStars())) {
    for (const { row, column } of places) stroke(context, kind, view.across(column), view.down(row), sizes[kind]);
  }
}

function drawGuides({ context, view }) {
  guideBoxes().forEach(({ box, place, label, live }, k) => {
    const name = `guide${k + 1}`;
    context.setLineDash(live ? [] : [3, 3]);
    context.strokeStyle = colour(name);
    context.lineWidth = 1.6;
    const half = (box.half + 1 / 512) * view.scale;
    context.strokeRect(view.across(box.column) - half, view.down(box.row) - half, 2 * half, 2 * half);
    context.setLineDash([]);
    if (live) stroke(context, "plus", view.across(place.column), view.down(place.row), 4, name);
    write(context, label, view.across(box.column), view.down(box.row) - half - 9, name, "center");
  });
}

/** Where north and east are, in the upper right corner. */
function drawCompass({ context, view }) {
  const points = state.solution?.rows && compass(state.solution.rows);
  if (!points) return;
  const [x, y, long] = [view.wide - 44, 44, 24];
  for (const [letter, [right, down]] of [["N", points.north], ["E", points.east]]) {
    context.strokeStyle = colour("quiet");
    context.lineWidth = 1.5;
    context.beginPath();
    context.moveTo(x, y);
    context.lineTo(x + long * right, y + long * down);
    context.stroke();
    write(context, letter, x + (long + 9) * right, y + (long + 9) * down, "text", "center");
  }
}

/** The chosen pixel with its window, and the pixel that beats it. */
function drawAsked({ context, view }) {
  if (!state.pixel) return;
  const { row, column } = state.pixel;
  const box = (r, c, size, width, name) => {
    context.lineWidth = width;
    context.strokeStyle = colour(name);
    context.strokeRect(view.across(c) - (size * view.scale) / 2, view.down(r) - (size * view.scale) / 2, size * view.scale, size * view.scale);
  };
  box(row, column, 7, 1.2, "asked");
  box(row, column, 1, 2, "asked");
  if (state.reason?.kind === "beaten") box(state.reason.row, state.reason.column, 1, 2, "beating");
}
