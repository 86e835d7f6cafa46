// The chosen pixel: the reason in a sentence, and its window of 7 x 7 in numbers.
import { currentFrame, element, fillWith, make, onRender, state } from "./state.mjs";
import { fill, reasonInWords, refusalInWords, thousands } from "./words.mjs";
import { choosePixel } from "./work.mjs";

const REACH = 3;

export function startPixel() {
  onRender(render);
  element("pixel-form").addEventListener("submit", (event) => {
    event.preventDefault();
    if (currentFrame()) choosePixel(Number(element("pixel-row").value), Number(element("pixel-column").value));
  });
  element("window").addEventListener("click", (event) => {
    const { row, column } = event.target.closest("td")?.dataset ?? {};
    if (row !== undefined) choosePixel(Number(row), Number(column));
  });
}

function render() {
  const { pixel, reason } = state;
  element("pixel-none").hidden = Boolean(pixel && reason);
  element("pixel-some").hidden = !pixel || !reason;
  if (!pixel || !reason) return;
  for (const name of ["row", "column"]) if (document.activeElement !== element(`pixel-${name}`)) element(`pixel-${name}`).value = pixel[name];
  const told = reason.refusal ? `refused: ${refusalInWords(state.texts, reason.refusal, state.settings).sentence}` : reasonInWords(state.texts, reason);
  element("reason").textContent = `Row ${pixel.row}, column ${pixel.column} is ${told}.`;
  element("more").textContent = reason.refusal ? "" : more(pixel, reason);
  renderGo(reason);
  if (!reason.refusal) renderWindow(pixel, reason);
}

/** What the sentence rests on, in numbers. */
function more(pixel, reason) {
  const { threshold, width } = state.settings;
  const sample = currentFrame().samples[pixel.row * width + pixel.column];
  const half = Math.floor(threshold / 2);
  const told = {
    dark: "",
    beaten: `Its sample is ${sample}. A pixel is beaten by an earlier one of its window that is at least as large, or by a later one that is larger.`,
    edge: `Its sample is ${sample}. A star's window needs three pixels on every side.`,
    lone: `Its sample is ${sample}. Half the threshold is ${half}, and the largest of its eight neighbours, marked below, is ${reason.largest}.`,
    measured: `Its sample is ${sample}. Half the threshold is ${half}; at least one of its eight neighbours reaches it.`,
  };
  return told[reason.kind];
}

/** The way to the pixel that beats this one. */
function renderGo(reason) {
  const go = element("go");
  go.hidden = reason.kind !== "beaten" || Boolean(reason.refusal);
  if (go.hidden) return;
  go.textContent = fill("Go to row {row}, column {column}", reason);
  go.onclick = () => choosePixel(reason.row, reason.column);
}

function renderWindow(pixel, reason) {
  const { width, height, threshold } = state.settings;
  const { samples } = currentFrame();
  const places = Array.from({ length: 2 * REACH + 1 }, (_, k) => k - REACH);
  const columns = places.map((right) => pixel.column + right);
  const out = (row, column) => row < 0 || row >= height || column < 0 || column >= width;
  const head = make("tr", {}, make("td"), ...columns.map((column) => make("th", { scope: "col", textContent: out(0, column) ? "" : column })));
  const most = Math.max(threshold, samples[pixel.row * width + pixel.column]);
  const rows = places.map((down) => {
    const row = pixel.row + down;
    const one = (column) => (out(row, column) ? make("td", { className: "out" }) : cell(row, column, samples[row * width + column], most, reason));
    return make("tr", {}, make("th", { scope: "row", textContent: out(row, 0) ? "" : row }), ...columns.map(one));
  });
  fillWith(element("window"), head, ...rows);
  element("window-told").textContent = `Samples of the window; bars go up to ${thousands(most)}, the threshold is ${threshold}.`;
}

function cell(row, column, sample, most, reason) {
  const { pixel } = state;
  const away = Math.max(Math.abs(row - pixel.row), Math.abs(column - pixel.column));
  const kinds = {
    asked: away === 0,
    beside: away === 1 && reason.kind === "lone",
    beating: reason.kind === "beaten" && row === reason.row && column === reason.column,
    bright: sample >= state.settings.threshold,
  };
  const made = make("td", { textContent: sample, className: Object.keys(kinds).filter((kind) => kinds[kind]).join(" ") });
  Object.assign(made.dataset, { row, column, level: Math.min(10, Math.round((10 * sample) / most)) });
  return made;
}
