// Two catalogues: what changed between them, both on a chart of the whole sky; and a flight catalogue cut out of the one in use.
import { starsOf } from "./bytes.mjs";
import { CHANGES, changesNow, kindsNow } from "./changes.mjs";
import { putCatalogue } from "./loading.mjs";
import { colour, plotOn, write } from "./pen.mjs";
import { save } from "./saving.mjs";
import { DEGREE, placeOf } from "./sky.mjs";
import { changed, element, fillWith, make, onRender, state } from "./state.mjs";
import { plural, refusalInWords } from "./words.mjs";
import { solveNow } from "./work.mjs";

const SHOWN = 200;
const NO_OTHER = "Drop a second catalogue to compare with: the newest is used, the one before is kept.";
const DOTS = { before: "removed", now: "catalogue", changed: "added", cut: "named" };

export function startCatalogues() {
  onRender(render);
  element("swap").addEventListener("click", () => {
    [state.catalogue, state.before] = [state.before, state.catalogue];
    state.cut = null;
    solveNow();
  });
  for (const id of ["limit", "closeness"]) element(id).addEventListener("input", cut);
  element("use-cut").addEventListener("click", () => {
    if (!state.cut?.catalogue) return;
    putCatalogue("cut.bin", state.cut.catalogue, [plural(state.cut.catalogue.length / 20, "star")]);
    solveNow();
  });
  element("save-cut").addEventListener("click", () => state.cut?.catalogue && save("catalogue.bin", state.cut.catalogue));
}

/** The closeness of an angle: 10^18 times its cosine. */
function closenessOf(degrees) {
  return BigInt(Math.round(1e18 * Math.cos(degrees * DEGREE)));
}

/** Tries a cut with the limit and closeness that the controls say. */
function cut() {
  if (!state.catalogue) return;
  const [limit, degrees] = ["limit", "closeness"].map((id) => Number(element(id).value));
  const { refusal, catalogue } = state.library.cut(state.catalogue.bytes, Math.round(1000 * limit), closenessOf(degrees));
  state.cut = { refusal, limit, degrees, catalogue: refusal ? null : catalogue, stars: refusal ? [] : starsOf(catalogue) };
  changed();
}

function render() {
  const { catalogue, before } = state;
  element("catalogue-told").textContent = catalogue ? `In use: ${catalogue.name}, ${plural(catalogue.stars.length, "star")}.` : "No catalogue yet.";
  element("before-told").textContent = before ? `Before: ${before.name}, ${plural(before.stars.length, "star")}.` : NO_OTHER;
  element("swap").hidden = !before;
  element("cut-part").disabled = !catalogue;
  renderChanges();
  renderCut();
  if (!element("panel-catalogues").hidden) drawSky();
}

function renderChanges() {
  const changes = changesNow();
  element("changes-some").hidden = !state.before;
  if (!state.before) return;
  const counts = [1, 2, 3].map((kind) => `${changes.filter((change) => change.kind === kind).length} ${CHANGES[kind]}`);
  const more = changes.length > SHOWN ? `; the first ${SHOWN} are shown` : "";
  element("changes-told").textContent = changes.length ? `${counts.join(", ")}${more}` : "They are equal, byte for byte.";
  const entries = changes.slice(0, SHOWN).map(({ identity, kind }) => make("li", { textContent: `${CHANGES[kind]} ${identity}` }));
  fillWith(element("changes"), ...entries);
}

function renderCut() {
  const degrees = Number(element("closeness").value);
  element("limit-told").textContent = Number(element("limit").value).toFixed(2);
  element("closeness-told").textContent = `${degrees.toFixed(2)}°, a dot product of ${closenessOf(degrees)}`;
  const { cut: tried, catalogue } = state;
  element("use-cut").disabled = element("save-cut").disabled = !tried?.catalogue;
  element("cut-told").textContent = !tried
    ? "Turn a control to try a cut."
    : tried.refusal
      ? `Refused ${tried.refusal.number}: ${refusalInWords(state.texts, tried.refusal, {}).sentence}.`
      : `kept ${tried.stars.length} of ${catalogue.stars.length}`;
}

/** The whole sky, right ascension growing to the left: the catalogue in use, the one before, and what a cut keeps. */
function drawSky() {
  const { context, wide, tall } = plotOn(element("sky"));
  const at = ({ ra, dec }) => [wide * (1 - ra / 360), tall * (0.5 - dec / 180)];
  context.strokeStyle = colour("line");
  context.lineWidth = 1;
  for (const ra of [90, 180, 270]) context.strokeRect(wide * (1 - ra / 360), 0, 0, tall);
  for (const dec of [-45, 0, 45]) context.strokeRect(0, tall * (0.5 - dec / 180), wide, 0);
  const kinds = kindsNow();
  const show = (star, kind, shape) => dot(context, at(placeOf(star.vector)), star, kind, shape);
  for (const star of state.before?.stars ?? []) if (kinds.has(star.identity)) show(star, "before", "diamond");
  for (const star of state.catalogue?.stars ?? []) kinds.has(star.identity) ? show(star, "changed", "square") : show(star, "now", "round");
  for (const star of state.cut?.stars ?? []) show(star, "cut", "round");
  const axis = state.solution?.pointing;
  if (axis) write(context, "⌖", ...at(axis), "asked", "center");
}

/** A star, the larger the brighter. */
function dot(context, [x, y], star, kind, shape) {
  const size = Math.max(1, 3.2 - 0.45 * star.magnitude);
  context.fillStyle = context.strokeStyle = colour(DOTS[kind]);
  context.lineWidth = 1.2;
  context.beginPath();
  if (shape === "round") context.arc(x, y, size, 0, 2 * Math.PI);
  else if (shape === "square") context.rect(x - size - 1.5, y - size - 1.5, 2 * size + 3, 2 * size + 3);
  else [[0, -1], [1, 0], [0, 1], [-1, 0], [0, -1]].forEach(([right, down]) => context.lineTo(x + (size + 3) * right, y + (size + 3) * down));
  if (shape === "round") context.fill();
  else context.stroke();
}
