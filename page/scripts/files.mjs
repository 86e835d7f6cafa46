// What a dropped or chosen file is, and what it holds. A file is told by its contents; where these leave it open, by its name.
import { RECORD, SETTINGS_BYTES, catalogueBytes, samplesOf, settingsOf } from "./bytes.mjs";
import { Mistake, isFits, isPgm, readFits, readPgm } from "./images.mjs";
import { isStarList, readStarList } from "./starlist.mjs";

const MOST_BYTES = 2 ** 26;

/** Settings come first, since frames are read by them. */
const ORDER = ["settings", "catalogue", "frame"];

/** The bytes of files, with their names; those that are empty or far too large are told. */
export async function bytesOf(files, tell) {
  const read = [];
  for (const file of files) {
    if (file.size > MOST_BYTES) tell(file.name, `it has ${file.size} bytes, far too many`);
    else if (!file.size) tell(file.name, "it is empty, or a folder");
    else read.push({ name: file.name, bytes: new Uint8Array(await file.arrayBuffer()) });
  }
  return read;
}

/** The files in the order in which they are read, each with its kind. */
export function inOrder(files, settings) {
  const announced = files.find(({ name, bytes }) => bytes.length === SETTINGS_BYTES && kindOf(name, bytes, settings) === "settings");
  const known = announced ? settingsOf(announced.bytes) : settings;
  const kinds = files.map((file) => ({ ...file, kind: kindOf(file.name, file.bytes, known) }));
  const place = ({ kind }) => (ORDER.includes(kind) ? ORDER.indexOf(kind) : ORDER.length);
  return kinds.sort((a, b) => place(a) - place(b) || a.name.localeCompare(b.name, "en", { numeric: true }));
}

/** Which of the known kinds a file is: image, text, or one of the camera's own by its length and name. */
function kindOf(name, bytes, settings) {
  if (isFits(bytes) || isPgm(bytes)) return "frame";
  if (bytes.length === SETTINGS_BYTES && !/catalogue|frame/i.test(name)) return "settings";
  if (/settings.*\.bin$/i.test(name)) return "settings";
  if (/catalogue.*\.bin$/i.test(name)) return "catalogue";
  if (/frame.*\.bin$/i.test(name)) return "frame";
  if (settings && bytes.length === 2 * settings.width * settings.height) return "frame";
  const text = asText(bytes);
  if (text !== null && isStarList(text)) return "catalogue";
  return text === null && bytes.length % RECORD === 0 ? "catalogue" : "unknown";
}

/** Text of a star list; null where bytes are none. */
function asText(bytes) {
  const text = new TextDecoder("utf-8").decode(bytes);
  // Letters that no text has, and more than a few that could not be read, are bytes.
  return /[\0-\x08\x0e-\x1f]/.test(text) || (text.match(/\ufffd/g)?.length ?? 0) > text.length / 50 ? null : text;
}

/** A file's contents: { settings }, { catalogue, notes } or { frame }. What it does not settle, and what was answered, is in `how`. */
export function contents(file, settings, guesses, how = {}) {
  if (file.kind === "settings") return { settings: readSettings(file.bytes) };
  if (file.kind === "catalogue") return readCatalogue(file.bytes, guesses, how.hours);
  if (file.kind === "frame") return { frame: { name: file.name, ...readFrame(file.bytes, settings, how.full) } };
  throw new Mistake("it is no frame (frame.bin, FITS, PGM), no settings.bin, no catalogue.bin and no star list");
}

function readSettings(bytes) {
  if (bytes.length !== SETTINGS_BYTES) throw new Mistake(`settings.bin has ${SETTINGS_BYTES} bytes, and this has ${bytes.length}`);
  return settingsOf(bytes);
}

function readCatalogue(bytes, guesses, hours) {
  const text = asText(bytes);
  if (text !== null && isStarList(text)) {
    const { records, notes } = readStarList(text, guesses, hours);
    return { catalogue: catalogueBytes(records), notes };
  }
  if (bytes.length % RECORD) throw new Mistake(`catalogue.bin has records of ${RECORD} bytes, and ${bytes.length} is no multiple of that`);
  return { catalogue: bytes, notes: [`${bytes.length / RECORD} records`] };
}

function readFrame(bytes, settings, full) {
  if (isFits(bytes)) return readFits(bytes, full);
  if (isPgm(bytes)) return readPgm(bytes, full);
  if (!settings) throw new Mistake("a frame.bin does not say its size: drop settings.bin with it, or before");
  const { width, height } = settings;
  const wanted = 2 * width * height;
  if (bytes.length !== wanted) throw new Mistake(`it has ${bytes.length} bytes, and a frame.bin of the settings' ${width} x ${height} has ${wanted}`);
  return { width, height, samples: samplesOf(bytes), notes: [], date: null };
}
