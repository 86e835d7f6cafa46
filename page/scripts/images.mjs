// Images that become frames: FITS with 8 or 16 bits, and PGM. What a file does not settle is asked for, not guessed.

const LEVELS = 4096;
const BLOCK = 2880;
const CARD = 80;

/** A file that cannot be used; the message says why. `choices` are what would settle it: a label and what to read the file with. */
export class Mistake extends Error {
  constructor(message, choices = []) {
    super(message);
    this.choices = choices;
  }
}

export const isFits = (bytes) => ascii(bytes, 0, 9) === "SIMPLE  =";
export const isPgm = (bytes) => ["P5", "P2"].includes(ascii(bytes, 0, 2)) && /[\s#]/.test(ascii(bytes, 2, 3));

/** The frame of a FITS file's primary image. FITS has the bottom row first, unless ROWORDER says otherwise. */
export function readFits(bytes, full) {
  const { cards, data } = header(bytes);
  const { width, height, bits, zero } = fitsShape(cards);
  const view = new DataView(bytes.buffer, bytes.byteOffset, bytes.byteLength);
  const size = bits / 8;
  mustReach(bytes, data + size * width * height);
  const down = String(cards.ROWORDER ?? "").toUpperCase() === "TOP-DOWN";
  const value = (row, column) => {
    const at = data + size * ((down ? row : height - 1 - row) * width + column);
    return zero + (bits === 8 ? view.getUint8(at) : view.getInt16(at));
  };
  const frame = toDepth(width, height, value, full, bits === 8 ? 256 : zero ? 65536 : 32768);
  return { ...frame, date: cards["DATE-OBS"] ?? null };
}

function mustReach(bytes, end) {
  if (end > bytes.length) throw new Mistake(`it is cut short: ${bytes.length} bytes, and its image ends at ${end}`);
}

/** The cards of the primary header by name, and where its data begin. */
function header(bytes) {
  const cards = {};
  for (let at = 0; at + CARD <= bytes.length; at += CARD) {
    const card = ascii(bytes, at, CARD);
    const name = card.slice(0, 8).trim();
    if (name === "END") return { cards, data: Math.ceil((at + CARD) / BLOCK) * BLOCK };
    if (card[8] === "=") cards[name] = cardValue(card.slice(9));
  }
  throw new Mistake("it is cut short: its header has no end");
}

function cardValue(text) {
  const quoted = /^\s*'((?:[^']|'')*)'/.exec(text);
  if (quoted) return quoted[1].trimEnd();
  const word = text.split("/")[0].trim();
  return word === "" || Number.isNaN(Number(word)) ? word : Number(word);
}

function fitsShape(cards) {
  const { BITPIX: bits, NAXIS: axes, NAXIS1: width, NAXIS2: height, BSCALE: scale = 1, BZERO: zero = 0 } = cards;
  if (!axes) throw new Mistake("its primary unit has no image; ./mnemathor frame takes another with --hdu");
  const flat = Array.from({ length: axes - 2 }, (_, k) => cards[`NAXIS${k + 3}`]).every((side) => side === 1);
  if (axes < 2 || !flat) throw new Mistake(`its image has ${axes} axes; ./mnemathor frame takes one plane of it with --plane`);
  if (![8, 16].includes(bits)) throw new Mistake(`its samples are of BITPIX ${bits}; 8 and 16 are read here, ./mnemathor frame reads the others`);
  const known = scale === 1 && (zero === 0 || (bits === 16 && zero === 32768));
  if (!known) throw new Mistake(`its BSCALE ${scale} and BZERO ${zero} make no whole numbers of a camera; ./mnemathor frame reads it`);
  return { width, height, bits, zero };
}

/** The frame of a PGM file, with samples as bytes (P5) or as text (P2), rows from the top. */
export function readPgm(bytes, full) {
  const { words, at } = pgmWords(bytes, 4);
  const [width, height, most] = words.slice(1).map(Number);
  const whole = [width, height, most].every((number) => Number.isInteger(number) && number > 0);
  if (!whole || most > 65535) throw new Mistake("its head has no width, height and largest value");
  const size = most > 255 ? 2 : 1;
  if (words[0] === "P2") return plainPgm(bytes, width, height, most, full);
  mustReach(bytes, at + size * width * height);
  const view = new DataView(bytes.buffer, bytes.byteOffset, bytes.byteLength);
  const value = (row, column) => (size === 2 ? view.getUint16(at + 2 * (row * width + column)) : view.getUint8(at + row * width + column));
  return { ...toDepth(width, height, value, full, most + 1), date: null };
}

function plainPgm(bytes, width, height, most, full) {
  const values = new TextDecoder("latin1").decode(bytes).replace(/#.*/g, "").trim().split(/\s+/).slice(4).map(Number);
  if (values.length < width * height) throw new Mistake(`it is cut short: ${values.length} samples of ${width * height}`);
  return { ...toDepth(width, height, (row, column) => values[row * width + column], full, most + 1), date: null };
}

/** The first words of a PGM file, comments left out, and where its samples begin. */
function pgmWords(bytes, count) {
  const words = [];
  let at = 0;
  while (words.length < count && at < bytes.length) {
    const letter = String.fromCharCode(bytes[at]);
    if (letter === "#") while (at < bytes.length && bytes[at] !== 10) at++;
    else if (/\s/.test(letter)) at++;
    else {
      let word = "";
      while (at < bytes.length && !/[\s#]/.test(String.fromCharCode(bytes[at]))) word += String.fromCharCode(bytes[at++]);
      words.push(word);
    }
  }
  return { words, at: at + 1 };
}

/** Values as samples of 12 bits: v x 4096 / full, rounded down. Where words of 16 bits hold no more than 12, it is asked which of the two is full. */
function toDepth(width, height, value, full, usual) {
  if (Math.min(width, height) < 7 || Math.max(width, height) > 1024) {
    throw new Mistake(`it has ${width} x ${height} pixels, and sides are 7 to 1,024; ./mnemathor frame has --bin and --crop`);
  }
  const values = new Int32Array(width * height);
  for (let row = 0, at = 0; row < height; row++) for (let column = 0; column < width; column++) values[at++] = value(row, column);
  const largest = values.reduce((most, each) => Math.max(most, each), 0);
  if (!full && 0 < largest && largest < LEVELS && LEVELS < usual) {
    const told = `it has room for values below ${usual}, and its largest is ${largest}: is the camera one of 12 bits, or is the frame as dark as that?`;
    throw new Mistake(told, [{ label: "A camera of 12 bits", full: LEVELS }, { label: "A dark frame", full: usual }]);
  }
  const scale = LEVELS / (full || usual);
  const levels = Float64Array.from(values, (each) => Math.floor(each * scale));
  const clipped = levels.reduce((count, level) => count + (level < 0 || level >= LEVELS), 0);
  const samples = Uint16Array.from(levels, (level) => Math.max(0, Math.min(LEVELS - 1, level)));
  return { width, height, samples, notes: clipped ? [`${clipped} pixels clipped to 0 to 4,095`] : [] };
}

function ascii(bytes, at, count) {
  return String.fromCharCode(...bytes.subarray(at, at + count));
}
