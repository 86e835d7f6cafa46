// Begins: unpacks what the maker put into the page, makes the library ready, and starts every part.
import { startAnswer } from "./answer.mjs";
import { startCatalogues } from "./catalogues.mjs";
import { startControls } from "./controls.mjs";
import { startGuiding } from "./guiding.mjs";
import { Library } from "./library.mjs";
import { putInside, startLoading } from "./loading.mjs";
import { tell } from "./notices.mjs";
import { startPixel } from "./pixel.mjs";
import { startSaving } from "./saving.mjs";
import { startSelfTest } from "./selftest.mjs";
import { startSequence } from "./sequence.mjs";
import { startSight } from "./sight.mjs";
import { changed, element, make, state } from "./state.mjs";
import { startTabs } from "./tabs.mjs";
import { thousands } from "./words.mjs";
import { solveNow } from "./work.mjs";

/** Bytes that the maker packed: base64 of a zlib stream. */
async function unpack(text) {
  const packed = Uint8Array.from(atob(text), (letter) => letter.charCodeAt(0));
  const stream = new Blob([packed]).stream().pipeThrough(new DecompressionStream("deflate"));
  return new Uint8Array(await new Response(stream).arrayBuffer());
}

async function unpackFolder({ settings, catalogue, frames }) {
  const unpacked = await Promise.all(frames.map(async ({ name, date, samples }) => ({ name, date, bytes: await unpack(samples) })));
  return { settings: settings && (await unpack(settings)), catalogue: catalogue && (await unpack(catalogue)), frames: unpacked };
}

async function unpackRecorded({ cases, expected, of }) {
  return { cases: await unpack(cases), expected: new TextDecoder().decode(await unpack(expected)), of };
}

/** Red light, for eyes that are used to the dark. */
function startLight() {
  const light = element("light");
  light.addEventListener("click", () => {
    const red = document.documentElement.classList.toggle("red");
    light.setAttribute("aria-pressed", String(red));
    changed();
  });
}

/** What the page is: its version, what its module was made from, and what is proved. */
function showMade({ version, from, proved, bytes }) {
  element("version").textContent = version;
  element("made-from").textContent = from;
  element("module-bytes").textContent = thousands(bytes);
  element("proved").replaceChildren(...proved.map((sentence) => make("li", { textContent: sentence })));
}

const PARTS = [
  startSight,
  startAnswer,
  startPixel,
  startControls,
  startSequence,
  startGuiding,
  startCatalogues,
  startSaving,
  startLoading,
  startTabs,
  startLight,
];

async function begin() {
  const { module, calls, made, texts, folder, example, recorded } = JSON.parse(element("inside").textContent);
  const bytes = await unpack(module);
  Object.assign(state, { library: await Library.load(bytes), texts, made });
  showMade({ ...made, bytes: bytes.length });
  for (const start of PARTS) start();
  startSelfTest(calls, () => unpackRecorded(recorded), () => {
    state.kept = null;
    solveNow();
  });
  element("example").addEventListener("click", async () => putInside(await unpackFolder(example)));
  if (folder) putInside(await unpackFolder(folder));
  document.documentElement.dataset.ready = "yes";
  changed();
}

begin().catch((error) => {
  element("verdict").textContent = "This browser cannot run the page";
  const needs = "It needs WebAssembly and DecompressionStream, as browsers since 2023 have them.";
  tell(`The page could not begin: ${error.message}. ${needs}`, { fault: true });
});
