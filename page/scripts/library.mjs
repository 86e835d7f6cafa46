// The proved library as a WebAssembly module: typed arrays are lent, answers are plain objects. Nothing here decides anything; names, order and units are those
// of include/mnemathor.h and docs/RULES.md.

const NUMBERS = 64;
const ROOM = 4096;
export const PIXEL = 256;
export const UNIT = 1e9;
const KINDS = ["dark", "beaten", "edge", "lone", "measured"];
const SIDES = ["left", "right", "top", "bottom"];
const PIXELS = 1;
// Where the names of a chain begin, behind its list.
const NAMES = 30;
const MOST_CHANGES = 1024 * 8;

/** An array that is in the module's memory already, and need not be copied there. */
class Kept {
  constructor(at, length) {
    this.at = at;
    this.length = length;
  }
}

export class Library {
  #exports;
  #start;
  #end;
  #kept;

  static async load(bytes) {
    const { instance } = await WebAssembly.instantiate(bytes);
    return new Library(instance.exports);
  }

  constructor(exports) {
    this.#exports = exports;
    this.#start = exports.lent();
    this.#end = this.#start + exports.lent_bytes();
    this.#kept = this.#start;
  }

  /** Leaves an array in the module's memory for the calls that follow, in the place of the one before. */
  keep(array) {
    this.#kept = this.#start;
    const { at, length } = this.#place(this.#start, array);
    this.#kept = this.#next(at, array);
    return new Kept(at, length);
  }

  /** Makes a call and hands back its 64 numbers. Arrays of `written` hold afterwards what the call left in them. */
  numbers(name, words, written = []) {
    let at = this.#kept;
    const places = new Map();
    const given = words.flatMap((word) => {
      if (word instanceof Kept) return [word.at, BigInt(word.length)];
      if (!ArrayBuffer.isView(word)) return [word];
      places.set(word, this.#place(at, word));
      at = this.#next(at, word);
      return [places.get(word).at, BigInt(word.length)];
    });
    const out = new BigInt64Array(NUMBERS);
    const answer = this.#place(at, out);
    this.#exports[`mnemathor_${name}`](...given, answer.at, BigInt(NUMBERS));
    for (const array of written) array.set(this.#view(array, places.get(array).at));
    out.set(this.#view(out, answer.at));
    return out;
  }

  #next(at, array) {
    return (at + array.byteLength + 15) & ~15;
  }

  #view(array, at) {
    return new array.constructor(this.#exports.memory.buffer, at, array.length);
  }

  #place(at, array) {
    if (this.#next(at, array) > this.#end) throw new RangeError("more is lent than the module has room for");
    this.#view(array, at).set(array);
    return { at, length: array.length };
  }

  // The calls.

  reason(samples, settings, row, column) {
    const out = this.numbers("reason", [samples, ...frameWords(settings), BigInt(row), BigInt(column)]);
    return { refusal: refusalOf(out), ...reasonOf(out) };
  }

  verdict(samples, settings, row, column) {
    const out = this.numbers("verdict", [samples, ...frameWords(settings), BigInt(row), BigInt(column)]);
    return { refusal: refusalOf(out), kind: KINDS[Number(out[4])], centroid: centroidAt(out, 5) };
  }

  /** The frame's list; `numbers` are what the guider takes. */
  list(samples, settings) {
    const out = this.numbers("list", [samples, ...frameWords(settings)]);
    return { refusal: refusalOf(out), ...reportOf(out), numbers: out };
  }

  /** The whole focal length of a lens plate: { pixels } or { millimetres, micrometres }. */
  lens(plate) {
    const words = "pixels" in plate ? [PIXELS, plate.pixels, 0] : [0, plate.millimetres, plate.micrometres];
    const out = this.numbers("lens", words);
    return { refusal: refusalOf(out), focal: Number(out[2]) };
  }

  direction(settings, x, y) {
    const out = this.numbers("direction", [...cameraWords(settings), BigInt(x), BigInt(y)]);
    return { refusal: refusalOf(out), vector: [2, 3, 4].map((place) => Number(out[place])) };
  }

  /** The directions of a list's stars, three numbers each. */
  directions(settings, stars) {
    return Int32Array.from(stars.flatMap((star) => this.direction(settings, star.x, star.y).vector));
  }

  catalogue(bytes) {
    const out = this.numbers("catalogue", [bytes]);
    return { refusal: refusalOf(out), records: Number(out[2]) };
  }

  ranking(directions, catalogue, settings) {
    const room = new Uint16Array((directions.length / 3) * (catalogue.length / 20));
    const out = this.numbers("ranking", [directions, catalogue, settings.tolerance, room], [room]);
    return { refusal: refusalOf(out), ranking: room };
  }

  search(directions, catalogue, settings, ranking) {
    const out = this.numbers("search", [directions, catalogue, BigInt(settings.needed), settings.tolerance, ranking]);
    return { refusal: refusalOf(out), names: namesAt(out, 3, directions.length / 3) };
  }

  /** The first rival's names, or null where the search's answer is alone. */
  rival(directions, catalogue, settings, ranking) {
    const out = this.numbers("rival", [directions, catalogue, BigInt(settings.needed), settings.tolerance, ranking]);
    return { refusal: refusalOf(out), names: out[2] ? namesAt(out, 3, directions.length / 3) : null };
  }

  /** The chain; of an accepted one `list` is what the list's call hands over. */
  chain(samples, settings, catalogue) {
    const room = new Uint16Array(ROOM);
    const words = [samples, ...frameWords(settings), ...cameraWords(settings), catalogue, BigInt(settings.needed), settings.tolerance, room];
    const out = this.numbers("chain", words, [room]);
    const list = { refusal: null, ...reportOf(out), numbers: out.slice().fill(0n, NAMES) };
    return { refusal: refusalOf(out), list, names: namesAt(out, NAMES, list.stars.length), matrix: out.slice(38, 47), room };
  }

  /** A matrix as rows of direction cosines, nine floats. */
  cosines(matrix) {
    const rows = new Float64Array(9);
    this.numbers("cosines", [matrix, rows], [rows]);
    return rows;
  }

  turned(rows, target) {
    const turned = new Float64Array(3);
    this.numbers("turned", [rows, Float64Array.from(target), turned], [turned]);
    return turned;
  }

  /** What changed between two catalogues: identity and kind (1 removed, 2 added, 3 changed) of each star. */
  compare(first, second) {
    const room = new Uint8Array(MOST_CHANGES);
    const out = this.numbers("compare", [first, second, room], [room]);
    const view = new DataView(room.buffer);
    const changes = Array.from({ length: Number(out[2]) }, (_, k) => ({ identity: view.getUint32(8 * k), kind: view.getUint32(8 * k + 4) }));
    return { refusal: refusalOf(out), changes };
  }

  /** A flight catalogue cut out of a larger one: the kept records. */
  cut(catalogue, limit, closeness) {
    const lent = catalogue.slice();
    const out = this.numbers("cut", [lent, limit, closeness], [lent]);
    return { refusal: refusalOf(out), catalogue: lent.slice(0, 20 * Number(out[2])) };
  }

  /** A guider's 18 numbers; guides are { identity, x, y }. */
  startGuider(halfWidth, guides) {
    const guider = new BigInt64Array(18);
    const stars = BigInt64Array.from(guides.flatMap(({ identity, x, y }) => [BigInt(identity), BigInt(x), BigInt(y)]));
    const out = this.numbers("guider_start", [BigInt(halfWidth), stars, guider], [guider]);
    return { refusal: refusalOf(out), guider };
  }

  /** The guider after a frame, from the numbers of the frame's list. */
  guide(guider, list) {
    const after = guider.slice();
    const out = this.numbers("guider_frame", [after, list], [after]);
    return { refusal: refusalOf(out), guider: after };
  }
}

/** The guides of a guider's numbers. */
export function guidesOf(guider) {
  return Array.from({ length: Number(guider[1]) }, (_, k) => {
    const [identity, x, y, misses] = Array.from(guider.slice(2 + 4 * k, 6 + 4 * k), Number);
    return { identity, x, y, misses };
  });
}

function frameWords(settings) {
  return [settings.width, settings.height, settings.threshold].map(BigInt);
}

/** Centre and lens; the file's F over 256 is the lens in pixels. */
function cameraWords(settings) {
  return [BigInt(settings.cx), BigInt(settings.cy), PIXELS, settings.focal / PIXEL, 0];
}

/** Number and place of a refusal; null where the call is accepted. */
function refusalOf(out) {
  return out[0] ? { number: Number(out[0]), place: Number(out[1]) } : null;
}

function centroidAt(out, at) {
  return { x: Number(out[at]), y: Number(out[at + 1]), brightness: Number(out[at + 2]) };
}

function reportOf(out) {
  const stars = Array.from({ length: Number(out[2]) }, (_, k) => centroidAt(out, 6 + 3 * k));
  return { stars, measured: Number(out[3]), edge: Number(out[4]), lone: Number(out[5]) };
}

/** Record numbers, null for none. */
function namesAt(out, at, count) {
  return Array.from(out.slice(at, at + count), (star) => (star < 0n ? null : Number(star)));
}

function reasonOf(out) {
  const kind = KINDS[Number(out[2])];
  const [first, second] = [Number(out[3]), Number(out[4])];
  const named = {
    dark: { sample: first, threshold: second },
    beaten: { row: first, column: second },
    edge: { side: SIDES[first] },
    lone: { largest: first },
    measured: { centroid: centroidAt(out, 3) },
  };
  return { kind, ...named[kind] };
}
