// One frame solved: list, chain and rival by the library, with pointing and residuals for people.
import { PIXEL, UNIT } from "./library.mjs";
import { angleBetween, pointingOf } from "./sky.mjs";

/** The refusals that are the frame's own: then the list is there all the same. */
const OF_THE_FRAME = [12, 13, 14];
const TOO_CLOSE = 14;
const WINDOW = 7;
// At most so many pixels are asked about; frames with more peaks above the threshold are no frames of stars.
const ASKS = 20000;

/** What a frame gives. `samples` are lent or kept samples, `stars` the catalogue's. */
export function solve(library, samples, settings, catalogue, stars) {
  const chain = library.chain(samples, settings, catalogue);
  // An accepted chain has the list in it; a frame is gone through once.
  const list = chain.refusal ? library.list(samples, settings) : chain.list;
  if (list.refusal) return { refusal: list.refusal, list, stars: [], rows: null, rival: null };
  const listed = list.stars.map((star, number) => ({ number, ...star, ...inPixels(star), record: null, rivalRecord: null }));
  if (chain.refusal && !OF_THE_FRAME.includes(chain.refusal.number)) return { refusal: chain.refusal, list, stars: listed, rows: null, rival: null };
  const directions = library.directions(settings, list.stars);
  const ranking = chain.room.slice(0, list.stars.length * stars.length);
  const solution = { refusal: chain.refusal, list, stars: listed, rows: null, rival: null };
  if (!chain.refusal) {
    solution.rows = library.cosines(chain.matrix);
    solution.matrix = Array.from(chain.matrix, Number);
    solution.pointing = pointingOf(solution.rows);
    solution.rival = library.rival(directions, catalogue, settings, ranking).names;
  }
  const names = chain.refusal?.number === TOO_CLOSE ? library.search(directions, catalogue, settings, ranking).names : chain.names;
  listed.forEach((star, k) => name(library, star, names[k] ?? null, solution, directions.slice(3 * k, 3 * k + 3), stars));
  return solution;
}

const inPixels = ({ x, y }) => ({ column: x / PIXEL, row: y / PIXEL });

/** Gives a listed star its name, its residual (the angle from its direction to where the matrix puts its catalogue star), and the rival's name. */
function name(library, star, record, { rows, rival }, direction, stars) {
  star.record = record;
  star.rivalRecord = rival?.[star.number] ?? null;
  if (record === null) return;
  star.identity = stars[record].identity;
  star.magnitude = stars[record].magnitude;
  if (rows) star.residual = angleBetween(Array.from(direction, (part) => part / UNIT), library.turned(rows, stars[record].vector));
}

/** How many names a list gets with these settings; 0 where it is refused. No attitude is asked for. */
export function namesWith(library, list, settings, catalogue) {
  if (library.direction(settings, 0, 0).refusal) return 0;
  const directions = library.directions(settings, list.stars);
  const { refusal, ranking } = library.ranking(directions, catalogue, settings);
  if (refusal) return 0;
  const search = library.search(directions, catalogue, settings, ranking);
  return search.refusal ? 0 : search.names.filter((record) => record !== null).length;
}

/** The pixels of the kinds edge, lone and measured, as the library's verdicts have them. A verdict looks at a pixel's window and at the sides alone, so it is
 * asked of the 7 x 7 pixels around; pixels that a neighbour beats are not asked about. The list's own counts say whether all were found. */
export function brightPixels(library, samples, settings, list) {
  const found = { edge: [], lone: [], measured: [], whole: true };
  const { width, threshold } = settings;
  let asks = 0;
  for (let at = 0; at < samples.length; at++) {
    if (samples[at] < threshold || beside(samples, settings, at)) continue;
    if (++asks > ASKS) return { ...found, whole: false };
    const [row, column] = [Math.floor(at / width), at % width];
    const { kind, ...place } = verdictAt(library, samples, settings, row, column);
    if (kind in found) found[kind].push({ row, column, ...place });
  }
  found.whole = found.edge.length === list.edge && found.lone.length === list.lone && found.measured.length === list.measured;
  return found;
}

/** Whether the pixel to the left or above is as large, or the one to the right or below larger: one of its window then beats it. */
function beside(samples, { width }, at) {
  const [sample, column] = [samples[at], at % width];
  return (
    (column > 0 && samples[at - 1] >= sample) ||
    (at >= width && samples[at - width] >= sample) ||
    (column < width - 1 && samples[at + 1] > sample) ||
    (at + width < samples.length && samples[at + width] > sample)
  );
}

/** A pixel's verdict and position, by the library's answer about the window around it. */
function verdictAt(library, samples, settings, row, column) {
  const top = Math.max(0, Math.min(row - 3, settings.height - WINDOW));
  const left = Math.max(0, Math.min(column - 3, settings.width - WINDOW));
  const cut = new Uint16Array(WINDOW * WINDOW);
  for (let line = 0; line < WINDOW; line++) {
    const start = (top + line) * settings.width + left;
    cut.set(samples.subarray(start, start + WINDOW), line * WINDOW);
  }
  const { kind, centroid } = library.verdict(cut, { width: WINDOW, height: WINDOW, threshold: settings.threshold }, row - top, column - left);
  return { kind, x: centroid.x + PIXEL * left, y: centroid.y + PIXEL * top };
}
