// The answer: accepted or refused, the pointing, the counts, and every listed star with its name, residual and the rival's name.
import { catalogueStars } from "./drawing.mjs";
import { MARKS, glyph } from "./pen.mjs";
import { angleOf, field, placeAt, sexagesimal } from "./sky.mjs";
import { currentFrame, element, fillWith, make, onRender, state } from "./state.mjs";
import { plural, refusalInWords, thousands } from "./words.mjs";
import { chooseStar } from "./work.mjs";

const BAD_CATALOGUE = 6;
const NO_CATALOGUE = "There is no catalogue yet: drop catalogue.bin or a star list. The list of bright stars below needs none.";

export function startAnswer() {
  onRender(renderVerdict);
  onRender(renderStars);
  onRender(renderLegend);
  element("stars").addEventListener("click", (event) => {
    const number = event.target.closest("button")?.dataset.number;
    const star = state.solution?.stars[number];
    if (star) chooseStar(star);
  });
}

function renderVerdict() {
  const { solution } = state;
  const verdict = element("verdict");
  verdict.className = !solution ? "none" : solution.refusal ? "refused" : solution.rival ? "rival" : "accepted";
  verdict.textContent = heading();
  fillWith(element("pointing"), ...pointing());
  fillWith(element("why"), ...why());
  element("counts").textContent = solution && !solution.list.refusal ? counts() : "";
}

function heading() {
  const { solution } = state;
  if (!currentFrame()) return "No frame yet";
  if (solution.refusal) return `Refused ${solution.refusal.number}${solution.refusal.place ? `, place ${thousands(solution.refusal.place)}` : ""}`;
  return solution.rival ? "Accepted, but another identification fits as well" : "Accepted, and alone";
}

function pointing() {
  const { solution } = state;
  if (!solution?.pointing) return [];
  const { ra, dec, roll } = solution.pointing;
  const words = sexagesimal(solution.pointing);
  const minus = (text) => text.replace("-", "−");
  return [
    ["Right ascension", words.ra, `${ra.toFixed(5)}°`],
    ["Declination", minus(words.dec), minus(`${dec.toFixed(5)}°`)],
    ["Roll", `${roll.toFixed(4)}°`, "north through east"],
  ].map(([name, value, small]) => {
    const below = make("dd", { className: "quiet", textContent: small });
    return make("div", {}, make("dt", { textContent: name }), make("dd", { textContent: value }), below);
  });
}

/** A refusal's sentence, what to look at, and hints. */
function why() {
  const { solution, settings, texts, hints, catalogue } = state;
  if (!solution?.refusal) return [];
  if (solution.refusal.number === BAD_CATALOGUE && !catalogue) return [make("p", { textContent: NO_CATALOGUE })];
  const { sentence, look, ranges } = refusalInWords(texts, solution.refusal, settings);
  const first = make("p", { textContent: `${sentence[0].toUpperCase()}${sentence.slice(1)}.` });
  const points = [look, ...ranges, ...hints].filter(Boolean);
  return [first, points.length ? make("ul", {}, ...points.map((point) => make("li", { textContent: point }))) : null].filter(Boolean);
}

function counts() {
  const { solution, measured, milliseconds } = state;
  const { list } = solution;
  const saturated = measured.saturated ? `, ${plural(measured.saturated, "sample")} saturated` : "";
  const sky = `sky ${measured.sky}, noise ${measured.noise.toFixed(1)}${saturated}`;
  return `measured ${list.measured} · edge ${list.edge} · lone ${list.lone} · ${sky} · ${milliseconds.toFixed(0)} ms`;
}

function renderStars() {
  const { solution } = state;
  const rival = Boolean(solution?.rival);
  element("stars-some").hidden = !solution?.stars.length;
  element("rival-told").hidden = !rival;
  element("rival-head").hidden = !rival;
  fillWith(element("stars"), ...(solution?.stars ?? []).map((star) => row(star, rival)));
}

function row(star, rival) {
  const go = make("button", { type: "button", className: "plain", textContent: star.number, title: "show this star's pixel" });
  go.dataset.number = star.number;
  const named = star.record !== null;
  const cell = (text, className = "") => make("td", { textContent: text, className });
  const other = star.rivalRecord === null ? "–" : String(state.catalogue.stars[star.rivalRecord].identity);
  const differs = star.rivalRecord !== null && named && star.rivalRecord !== star.record;
  return make(
    "tr",
    {},
    make("th", { scope: "row" }, go),
    cell(named ? String(star.identity) : "–"),
    rival ? cell(other, differs ? "differs" : "") : null,
    cell(named ? star.magnitude.toFixed(2) : ""),
    cell(star.residual === undefined ? "" : `${star.residual.toFixed(1)}″`),
    cell(star.column.toFixed(3)),
    cell(star.row.toFixed(3)),
    cell(thousands(star.brightness)),
  );
}

/** How many there are of each kind of mark. */
function kindCounts() {
  const { solution, marks } = state;
  const named = solution.stars.filter((star) => star.record !== null).length;
  const found = Object.entries(catalogueStars()).map(([kind, places]) => [kind, places.length]);
  return {
    named,
    unnamed: solution.stars.length - named,
    unlisted: marks.measured.length - solution.stars.length,
    edge: marks.edge.length,
    lone: marks.lone.length,
    ...Object.fromEntries(found),
  };
}

let drawn = null;

function renderLegend() {
  const counted = state.marks && state.solution && !state.solution.list.refusal ? kindCounts() : {};
  const kinds = Object.keys(MARKS).filter((kind) => counted[kind] > 0);
  const partly = state.marks && !state.marks.whole ? ["too many peaks: not all are marked"] : [];
  const key = document.documentElement.className + kinds.map((kind) => kind + counted[kind]).join() + partly;
  if (key === drawn) return;
  drawn = key;
  const entries = kinds.map((kind) => {
    const canvas = make("canvas", { className: "glyph" });
    glyph(canvas, kind);
    return make("li", {}, canvas, `${MARKS[kind].label} ${counted[kind]}`);
  });
  element("legend").replaceChildren(...entries, ...partly.map((text) => make("li", { textContent: text })));
}

/** Row, column and sample under the cursor, and the sky behind them. */
export function readout(row, column) {
  const frame = currentFrame();
  const [r, c] = [Math.round(row), Math.round(column)];
  if (!frame || r < 0 || c < 0 || r >= frame.height || c >= frame.width) return "";
  const { solution, settings } = state;
  const sky = solution?.rows ? sexagesimal(placeAt(solution.rows, column, row, settings)) : null;
  return `row ${r}  column ${c}  sample ${frame.samples[r * frame.width + c]}${sky ? `   ${sky.ra} ${sky.dec}` : ""}`;
}

/** What settings mean in angles. */
export function meaning(settings) {
  if (!settings.focal) return "no lens yet";
  const [wide, tall] = field(settings);
  const angles = [2, 5, 10].map((degrees) => `${angleOf(settings.tolerance, degrees).toFixed(1)}″ at ${degrees}°`);
  return `the field is ${wide.toFixed(2)}° × ${tall.toFixed(2)}°; the tolerance allows ${angles.join(", ")}`;
}
