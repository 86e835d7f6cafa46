// What the library is asked for when something changed: the frame's solution at once, hints and the other frames when nothing has changed for a while.
import { agreeing, expectedStars, measured, thresholdAdvice, whatWouldFit } from "./diagnosis.mjs";
import { brightPixels, solve } from "./solving.mjs";
import { changed, currentFrame, state } from "./state.mjs";
import { showTab } from "./tabs.mjs";

const REST = 200;
const FEW = 12;
const NO_FIT = 13;
const NO_STARS = new Uint8Array(0);
let resting = null;
const rested = [];

/** What is to be done once nothing has changed for a while. */
export function onRest(work) {
  rested.push(work);
}

/** Solves the frame that is shown, with the settings and the catalogue as they are. */
export function solveNow() {
  const frame = currentFrame();
  const began = performance.now();
  Object.assign(state, { solution: null, marks: null, hints: [], reason: null });
  if (frame) {
    if (state.kept?.frame !== frame) keepFrame(frame);
    state.solution = solutionOf(state.kept.samples);
    state.marks = brightPixels(state.library, frame.samples, state.settings, state.solution.list);
    askPixel();
  }
  state.milliseconds = performance.now() - began;
  clearTimeout(resting);
  resting = setTimeout(rest, REST);
  changed();
}

function keepFrame(frame) {
  state.kept = { frame, samples: state.library.keep(frame.samples) };
  state.measured = measured(frame.samples);
}

/** The solution of any samples, lent or kept. */
export function solutionOf(samples) {
  return solve(state.library, samples, state.settings, state.catalogue?.bytes ?? NO_STARS, state.catalogue?.stars ?? []);
}

/** Why the chosen pixel is or is not a star. */
function askPixel() {
  const frame = currentFrame();
  if (!frame || !state.pixel) return;
  const { row, column } = state.pixel;
  if (row >= frame.height || column >= frame.width) state.pixel = null;
  else state.reason = state.library.reason(state.kept.samples, state.settings, row, column);
}

/** Chooses a pixel, the nearest in the frame, and shows why it is or is not a star. */
export function choosePixel(row, column) {
  const { width, height } = state.settings;
  state.pixel = { row: Math.max(0, Math.min(height - 1, row)), column: Math.max(0, Math.min(width - 1, column)) };
  askPixel();
  showTab("pixel");
}

/** Chooses the pixel that a listed star was measured at; its position is often a pixel beside, where the star is wide. */
export function chooseStar(star) {
  const measured = state.marks.measured.find(({ x, y }) => x === star.x && y === star.y);
  if (measured) choosePixel(measured.row, measured.column);
  else choosePixel(Math.round(star.row), Math.round(star.column));
}

function rest() {
  state.hints = hints();
  changed();
  for (const work of rested) work();
}

/** What to look at, where the frame is refused for its stars. */
function hints() {
  const { library, settings, solution, catalogue, measured: seen } = state;
  if (!solution?.refusal || !catalogue || ![FEW, NO_FIT].includes(solution.refusal.number)) return [];
  const expected = expectedStars(settings, catalogue.stars).toFixed(1);
  const hint = [thresholdAdvice(seen, settings, solution.list), `the catalogue has ${expected} stars for a field of this size, on average`];
  if (solution.refusal.number === NO_FIT) {
    const directions = library.directions(settings, solution.list.stars);
    const known = agreeing(directions, catalogue.stars, settings.tolerance);
    hint.push(`${known} of the ${solution.stars.length} listed stars have a separation that the catalogue has too`);
    hint.push(...whatWouldFit(library, currentFrame().samples, settings, catalogue.bytes, solution.list));
  }
  return hint.filter(Boolean);
}
