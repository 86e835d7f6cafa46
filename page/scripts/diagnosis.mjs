// What a frame has, and why it has no solution: sky and noise, and what would fit instead. Hints for people, as ./mnemathor solve gives them.
import { PIXEL, UNIT } from "./library.mjs";
import { ARCSEC, DEGREE, angleOf, field } from "./sky.mjs";
import { namesWith } from "./solving.mjs";

const LEVELS = 4096;
const FOCAL_REACH = 0.05;
const STEPS = 25;
const BELOW_SKY = "hot pixels are taken for stars; a threshold above twice the sky, with some noise to spare, tells them apart";
const MOST_TOLERANT = 10n ** 16n;

/** Sky, noise, brightest and saturated samples: the median and the deviation of what is within three sigma of it. */
export function measured(samples) {
  const counts = new Uint32Array(LEVELS);
  for (const sample of samples) counts[Math.min(sample, LEVELS - 1)]++;
  let brightest = LEVELS - 1;
  while (brightest > 0 && !counts[brightest]) brightest--;
  let [low, high, sky, noise] = [0, LEVELS - 1, 0, 0];
  for (let pass = 0; pass < 5; pass++) {
    ({ sky, noise } = within(counts, low, high));
    [low, high] = [Math.max(0, Math.ceil(sky - 3 * noise)), Math.min(LEVELS - 1, Math.floor(sky + 3 * noise))];
  }
  return { sky, noise, brightest, saturated: counts[LEVELS - 1] };
}

function within(counts, low, high) {
  let [number, sum, squares] = [0, 0, 0];
  for (let level = low; level <= high; level++) {
    number += counts[level];
    sum += counts[level] * level;
    squares += counts[level] * level * level;
  }
  let [sky, seen] = [low, counts[low]];
  while (2 * seen < number) seen += counts[++sky];
  return { sky, noise: number ? Math.sqrt(Math.max(0, squares / number - (sum / number) ** 2)) : 0 };
}

/** The threshold against twice the sky, below which hot pixels are taken for stars. */
export function thresholdAdvice({ sky, noise, brightest }, settings, list) {
  if (settings.threshold <= 2 * sky) return BELOW_SKY;
  if (list.measured >= settings.needed) return "";
  if (brightest < settings.threshold) return "no sample reaches the threshold; expose longer, or lower it, but not below twice the sky";
  if (settings.threshold > 2 * sky + 10 * noise) return `the threshold may be lowered, to ${Math.floor(2 * sky + 5 * noise) + 1} or so`;
  return "";
}

/** How many stars the catalogue has for a field like this, on average. */
export function expectedStars(settings, stars) {
  const [wide, tall] = field(settings);
  return (Math.asin(Math.sin((wide * DEGREE) / 2) * Math.sin((tall * DEGREE) / 2)) / Math.PI) * stars.length;
}

/** Of a frame that no assignment fits: what else would. These are hints: a looser rule also fits by chance. */
export function whatWouldFit(library, frame, settings, catalogue, list) {
  const hints = [];
  if (mirroredFits(library, frame, settings, catalogue)) hints.push("in a mirror it would fit: is the readout mirrored?");
  for (const times of [2n, 4n]) {
    const tolerance = times * settings.tolerance < MOST_TOLERANT ? times * settings.tolerance : MOST_TOLERANT;
    const names = namesWith(library, list, { ...settings, tolerance }, catalogue);
    if (names) hints.push(`with a tolerance ${times} times as wide it would fit, with ${names} names`);
    if (names) break;
  }
  const fewer = settings.needed > 3 ? namesWith(library, list, { ...settings, needed: settings.needed - 1 }, catalogue) : 0;
  if (fewer) hints.push(`with a needed count of ${settings.needed - 1} it would fit, with ${fewer} names`);
  const other = otherFocal(library, list, settings, catalogue);
  if (other) hints.push(`with a focal length of ${(other.focal / PIXEL).toFixed(2)} pixels it would fit, with ${other.names} names`);
  return hints;
}

function mirroredFits(library, frame, settings, catalogue) {
  const samples = new Uint16Array(frame.length);
  for (let at = 0; at < frame.length; at += settings.width) samples.set(frame.slice(at, at + settings.width).reverse(), at);
  const mirrored = { ...settings, cx: Math.max(0, PIXEL * (settings.width - 1) - settings.cx) };
  return library.chain(samples, mirrored, catalogue).refusal === null;
}

/** The focal length near by that gives the most names, in steps that the tolerance can bridge. */
function otherFocal(library, list, settings, catalogue) {
  const side = Math.min(...field(settings));
  const step = Math.min(FOCAL_REACH, Math.max(FOCAL_REACH / STEPS, (angleOf(settings.tolerance, side) * ARCSEC) / (side * DEGREE)));
  let best = null;
  for (let count = 1; count <= Math.round(FOCAL_REACH / step); count++) {
    for (const sign of [1, -1]) {
      const focal = Math.round(settings.focal * (1 + sign * count * step));
      const names = namesWith(library, list, { ...settings, focal }, catalogue);
      if (names >= Math.max(settings.needed, 4) && names > (best?.names ?? 0)) best = { focal, names };
    }
  }
  return best;
}

/** How many listed stars have, with some other, a dot product that two catalogue stars have too, within the tolerance. */
export function agreeing(directions, stars, tolerance) {
  const rows = Array.from({ length: directions.length / 3 }, (_, k) => Array.from(directions.slice(3 * k, 3 * k + 3), (part) => part / UNIT));
  const dot = (a, b) => a[0] * b[0] + a[1] * b[1] + a[2] * b[2];
  const wide = Number(tolerance) / 1e18;
  const known = (product) => stars.some((a, i) => stars.some((b, j) => j > i && Math.abs(dot(a.vector, b.vector) - product) <= wide));
  return rows.filter((a) => rows.some((b) => b !== a && known(dot(a, b)))).length;
}
