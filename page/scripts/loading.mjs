// Files that were dropped or chosen, or that came with the page: each is read, judged by the library, and put in its place. What cannot be used is told.
import { ofSize, samplesOf, settingsOf, starsOf } from "./bytes.mjs";
import { bytesOf, contents, inOrder } from "./files.mjs";
import { Mistake } from "./images.mjs";
import { clearNotices, tell } from "./notices.mjs";
import { element, state } from "./state.mjs";
import { plural, refusalInWords } from "./words.mjs";
import { solveNow } from "./work.mjs";

const NOTHING = { width: 0, height: 0, threshold: 0, needed: 4, cx: 0, cy: 0, focal: 0, tolerance: 10n ** 14n };
const MOST_FRAMES = 2000;
let serial = 0;

/** Opens files; the page goes on whatever they hold. */
async function openFiles(files, how = {}) {
  clearNotices();
  const read = await bytesOf([...files], (name, why) => tell(`${name}: ${why}`, { fault: true }));
  const frames = [];
  for (const file of inOrder(read, state.settings)) put(file, frames, how);
  if (frames.length) putFrames(frames);
  if (read.length) solveNow();
}

/** Puts one file in its place; frames are gathered. */
function put(file, frames, how) {
  try {
    const { settings, catalogue, frame, notes } = contents(file, state.settings, state.texts.guesses, how);
    if (settings) putSettings(file.name, settings);
    else if (catalogue) putCatalogue(file.name, catalogue, notes);
    else frames.push(fitting(frame));
  } catch (error) {
    if (!(error instanceof Mistake)) throw error;
    const again = (choice) => () => openFiles([new File([file.bytes], file.name)], { ...how, ...choice });
    const choices = error.choices.map((choice) => ({ label: choice.label, act: choice.act ?? again(choice) }));
    tell(`${file.name}: ${error.message}`, { fault: true, choices });
  }
}

/** A frame of the settings' size, or of the first frame's where there are no settings; another is a mistake that can be mended. */
function fitting(frame) {
  const { settings } = state;
  const { width, height } = frame;
  if (!settings) {
    state.settings = state.loaded = { ...ofSize(NOTHING, width, height), threshold: 200 };
    tell(`There are no settings yet: ${width} × ${height} is the frame's size, the rest is a first guess, and the lens is not known.`);
  } else if (width !== settings.width || height !== settings.height) {
    const take = () => {
      state.settings = ofSize(settings, width, height);
      putAway();
      putFrames([frame]);
      solveNow();
    };
    const told = `it has ${width} × ${height} pixels, and the settings say ${settings.width} × ${settings.height}`;
    throw new Mistake(told, [{ label: "Take its size", act: take }]);
  }
  return frame;
}

function putSettings(name, settings) {
  state.settings = state.loaded = settings;
  putAway();
  const judged = judge(settings);
  if (judged) tell(`${name}: ${judged}`, { fault: true });
}

/** What the library says against settings, by a dark frame of their size and the smallest catalogue; null where it is only the want of stars. */
function judge(settings) {
  const star = Uint8Array.from([0, 0, 0, 0, 0, 0, 0, 0, 0, 0, 0, 0, 0x3b, 0x9a, 0xca, 0, 0, 0, 0, 0]);
  const size = Math.min(1024, settings.width) * Math.min(1024, settings.height);
  const { refusal } = state.library.chain(new Uint16Array(size), settings, star);
  if (refusal.number === 12) return null;
  const { sentence, ranges } = refusalInWords(state.texts, refusal, settings);
  return `refused ${refusal.number}: ${[sentence, ...ranges].join("; ")}`;
}

/** Frames that are not of the settings' size go. */
function putAway() {
  const { width, height } = state.settings;
  const fit = state.frames.filter((frame) => frame.width === width && frame.height === height);
  const gone = state.frames.length - fit.length;
  if (gone) tell(`${plural(gone, "frame")} of another size than ${width} × ${height} put away.`);
  Object.assign(state, { frames: fit, current: 0, pixel: null, kept: null });
}

/** A catalogue that the library accepts is used; the one in use before stays, to be compared with. */
export function putCatalogue(name, bytes, notes = []) {
  const { refusal } = state.library.catalogue(bytes);
  if (refusal) throw new Mistake(`refused ${refusal.number}, place ${refusal.place}: ${refusalInWords(state.texts, refusal, {}).sentence}`);
  if (state.catalogue) state.before = state.catalogue;
  state.catalogue = { name, bytes, stars: starsOf(bytes), serial: ++serial };
  state.cut = null;
  tell(`${name}: ${notes.join("; ")}${state.before ? `. It is in use; ${state.before.name} is kept to compare with.` : "."}`);
}

/** One frame takes the place of those before; several are a sequence. */
function putFrames(frames) {
  const kept = frames.slice(0, MOST_FRAMES);
  if (kept.length < frames.length) tell(`${plural(frames.length - kept.length, "frame")} beyond ${MOST_FRAMES} left out.`, { fault: true });
  for (const frame of kept) Object.assign(frame, { serial: ++serial });
  for (const frame of kept) if (frame.notes.length) tell(`${frame.name}: ${frame.notes.join("; ")}`);
  Object.assign(state, { frames: kept, current: 0, kept: null, runs: [], pixel: null });
  state.guiding.guides = [];
  element("welcome").hidden = true;
}

/** What came inside the page: settings, catalogue and frames of a folder. */
export function putInside({ settings, catalogue, frames }) {
  if (settings) state.settings = state.loaded = settingsOf(settings);
  if (catalogue?.length) quietly(() => putCatalogue("catalogue.bin", catalogue, [plural(catalogue.length / 20, "star")]));
  const { width, height } = state.settings ?? {};
  const made = frames.map(({ name, date, bytes }) => ({ name, date, width, height, samples: samplesOf(bytes), notes: [] }));
  if (made.length) putFrames(made);
  clearNotices();
  solveNow();
}

function quietly(act) {
  try {
    act();
  } catch (error) {
    tell(`catalogue.bin: ${error.message}`, { fault: true });
  }
}

/** Dropping anywhere, and choosing. */
export function startLoading() {
  const chooser = element("chooser");
  element("open").addEventListener("click", () => chooser.click());
  element("welcome-open").addEventListener("click", () => chooser.click());
  chooser.addEventListener("change", async () => {
    await openFiles(chooser.files);
    chooser.value = "";
  });
  const over = (on) => (event) => {
    event.preventDefault();
    document.body.classList.toggle("over", on);
  };
  document.addEventListener("dragover", over(true));
  document.addEventListener("dragleave", over(false));
  document.addEventListener("drop", (event) => {
    over(false)(event);
    openFiles(event.dataTransfer.files);
  });
}
