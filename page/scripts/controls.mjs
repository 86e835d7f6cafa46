// The settings as controls: every change runs list, chain and rival anew at once.
import { meaning } from "./answer.mjs";
import { PIXEL } from "./library.mjs";
import { element, onRender, state } from "./state.mjs";
import { refusalInWords } from "./words.mjs";
import { solveNow } from "./work.mjs";

const LEAST_LOG = 9;
const logOf = (tolerance) => (tolerance > 0n ? Math.max(LEAST_LOG, Math.log10(Number(tolerance))) : LEAST_LOG);
const focalLog = (focal) => Math.log2(Math.max(64, focal / PIXEL));

/** Each control: which part of the settings it shows, and what it makes of a number. A slider and a field may stand for the same part. */
const CONTROLS = {
  threshold: { show: (s) => s.threshold, take: (n) => ({ threshold: whole(n) }) },
  "threshold-number": { show: (s) => s.threshold, take: (n) => ({ threshold: whole(n) }) },
  needed: { show: (s) => s.needed, take: (n) => ({ needed: whole(n) }) },
  "needed-number": { show: (s) => s.needed, take: (n) => ({ needed: whole(n) }) },
  tolerance: { show: (s) => logOf(s.tolerance), take: (n) => ({ tolerance: n <= LEAST_LOG ? 0n : BigInt(Math.round(10 ** n)) }) },
  "tolerance-number": { show: (s) => s.tolerance, take: (_, text) => ({ tolerance: big(text) }) },
  lens: { show: (s) => focalLog(s.focal), take: (n) => lens({ pixels: 2 ** n }) },
  "lens-pixels": { show: (s) => s.focal / PIXEL, take: (n) => lens({ pixels: n }) },
  cx: { show: (s) => s.cx / PIXEL, take: (n) => ({ cx: Math.round(n * PIXEL) }) },
  "cx-number": { show: (s) => s.cx / PIXEL, take: (n) => ({ cx: Math.round(n * PIXEL) }) },
  cy: { show: (s) => s.cy / PIXEL, take: (n) => ({ cy: Math.round(n * PIXEL) }) },
  "cy-number": { show: (s) => s.cy / PIXEL, take: (n) => ({ cy: Math.round(n * PIXEL) }) },
};

const whole = (number) => Math.max(0, Math.min(65535, Math.round(number)));

function big(text) {
  const digits = text.replace(/[,\s]/g, "");
  if (!/^\d{1,19}$/.test(digits)) throw new RangeError(`the tolerance must be ${state.texts.ranges.tolerance}`);
  return BigInt(digits);
}

/** The whole focal length that the library gives for a plate. */
function lens(plate) {
  const { refusal, focal } = state.library.lens(plate);
  if (refusal) throw new RangeError(refusalInWords(state.texts, refusal, state.settings).sentence);
  return { focal };
}

export function startControls() {
  for (const [id, { take }] of Object.entries(CONTROLS)) {
    element(id).addEventListener("input", (event) => turn(() => take(Number(event.target.value), event.target.value)));
  }
  for (const id of ["millimetres", "micrometres"]) element(id).addEventListener("input", () => turn(plate));
  element("as-loaded").addEventListener("click", () => turn(() => state.loaded));
  onRender(render);
}

/** The lens plate in millimetres and micrometres. */
function plate() {
  const [millimetres, micrometres] = ["millimetres", "micrometres"].map((id) => Number(element(id).value));
  return millimetres > 0 && micrometres > 0 ? lens({ millimetres, micrometres }) : {};
}

/** Makes a change to the settings; one that cannot be a number of theirs is told beside the controls, and nothing changes. */
function turn(change) {
  if (!state.settings) return;
  try {
    const parts = change();
    if (Object.values(parts).some(Number.isNaN)) return;
    if (parts.cx < 0 || parts.cy < 0) throw new RangeError("the centre is in the frame: its numbers are not below 0");
    state.settings = { ...state.settings, ...parts };
    element("controls-told").textContent = "";
    solveNow();
  } catch (error) {
    if (!(error instanceof RangeError)) throw error;
    element("controls-told").textContent = error.message;
  }
}

function render() {
  const { settings } = state;
  element("settings-none").hidden = Boolean(settings);
  element("settings-some").disabled = !settings;
  if (!settings) return;
  element("cx").max = settings.width - 1;
  element("cy").max = settings.height - 1;
  for (const [id, { show }] of Object.entries(CONTROLS)) {
    const control = element(id);
    if (document.activeElement !== control || control.type === "range") control.value = String(show(settings));
  }
  element("tolerance").setAttribute("aria-valuetext", String(settings.tolerance));
  element("lens").setAttribute("aria-valuetext", `${(settings.focal / PIXEL).toFixed(2)} pixels`);
  element("meaning").textContent = `Frames of ${settings.width} × ${settings.height}; ${meaning(settings)}. F is ${settings.focal}.`;
}
