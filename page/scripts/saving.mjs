// What is saved: the settings as settings.bin, and what is shown as JSON and as a picture.
import { settingsBytes } from "./bytes.mjs";
import { colour } from "./pen.mjs";
import { currentFrame, element, make, state } from "./state.mjs";
import { tell } from "./notices.mjs";
import { sexagesimal } from "./sky.mjs";
import { reasonInWords, refusalInWords } from "./words.mjs";

const LINE = 20;

/** Hands a file to the browser's own saving. */
export function save(name, contents, type = "application/octet-stream") {
  const url = URL.createObjectURL(new Blob([contents], { type }));
  const link = make("a", { href: url, download: name });
  link.click();
  setTimeout(() => URL.revokeObjectURL(url), 10000);
  tell(`${name} was handed to the browser to save.`);
}

export function startSaving() {
  element("save-settings").addEventListener("click", () => state.settings && save("settings.bin", settingsBytes(state.settings)));
  element("save-json").addEventListener("click", () => currentFrame() && save(`${stem()}.json`, shownNow(), "application/json"));
  element("save-png").addEventListener("click", () => currentFrame() && savePicture());
}

const stem = () => currentFrame().name.replace(/\.\w+$/, "");

/** What is shown as JSON, with the names that ./mnemathor solve --json has; the tolerance is text, since not every one is a number there. */
function shownNow() {
  const { solution, settings, pixel, reason, texts, made } = state;
  const { measured, edge, lone } = solution.list;
  const shown = {
    file: currentFrame().name,
    refused: solution.refusal && { ...solution.refusal, sentence: refusalInWords(texts, solution.refusal, settings).sentence },
    ...solution.pointing,
    matrix: solution.matrix ? [0, 3, 6].map((at) => solution.matrix.slice(at, at + 3)) : null,
    stars: solution.stars.map(starShown),
    ...{ measured, edge, lone },
    rival: rivalShown(),
    settings: { ...settings, tolerance: String(settings.tolerance) },
    pixel: pixel && { ...pixel, reason: reasonInWords(texts, reason) },
    made_by: `mnemathor page ${made.version}, module made from ${made.from}`,
  };
  return JSON.stringify(shown, null, 1);
}

function starShown({ number, column, row, brightness, identity = null, magnitude = null, residual = null }) {
  return { number, column, row, brightness, identity, magnitude, residual };
}

/** The rival's identities for the stars that it names otherwise; null where there is none. */
function rivalShown() {
  const { solution, catalogue } = state;
  if (!solution.rival) return null;
  const others = solution.stars.filter(({ record, rivalRecord }) => rivalRecord !== null && rivalRecord !== record);
  return Object.fromEntries(others.map(({ number, rivalRecord }) => [number, catalogue.stars[rivalRecord].identity]));
}

/** The canvas as it is, with a line below that says what it shows. */
function savePicture() {
  const frame = element("frame");
  const ratio = window.devicePixelRatio || 1;
  const canvas = make("canvas", { width: frame.width, height: frame.height + 2 * LINE * ratio });
  const context = canvas.getContext("2d");
  context.fillStyle = colour("sky");
  context.fillRect(0, 0, canvas.width, canvas.height);
  context.drawImage(frame, 0, 0);
  context.fillStyle = colour("text");
  context.font = `${13 * ratio}px system-ui, sans-serif`;
  caption().forEach((text, k) => context.fillText(text, 8 * ratio, frame.height + (k + 0.75) * LINE * ratio));
  canvas.toBlob((blob) => save(`${stem()}.png`, blob, "image/png"));
}

function caption() {
  const { solution, settings } = state;
  const { name, date } = currentFrame();
  const words = solution.pointing && sexagesimal(solution.pointing);
  const where = words ? `${words.ra} ${words.dec} roll ${solution.pointing.roll.toFixed(3)}°, ` : "";
  const { threshold, needed, tolerance, focal } = settings;
  return [
    `${name}${date ? `, ${date}` : ""}: ${where}${element("verdict").textContent.toLowerCase()}`,
    `threshold ${threshold}, needed ${needed}, tolerance ${tolerance}, F ${focal}`,
  ];
}
