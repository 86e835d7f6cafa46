// Plays recorded calls: reads each from its file (second/README.md has the form), lends its buffers to the library, and writes the line that is expected of it.

const ARRAYS = { u8: Uint8Array, u16: Uint16Array, i32: Int32Array, i64: BigInt64Array, f64: BigUint64Array };
const MODULUS = 1000003;

/** A file of calls, read from its start; high byte first. */
class Stream {
  constructor(bytes) {
    this.view = new DataView(bytes.buffer, bytes.byteOffset, bytes.byteLength);
    this.at = 0;
  }

  byte() {
    return this.view.getUint8(this.at++);
  }

  word() {
    this.at += 8;
    return this.view.getBigUint64(this.at - 8);
  }

  count() {
    return Number(this.word());
  }

  element(type) {
    const read = { u8: "getUint8", u16: "getUint16", i32: "getInt32", i64: "getBigInt64", f64: "getBigUint64" }[type];
    const value = this.view[read](this.at);
    this.at += ARRAYS[type].BYTES_PER_ELEMENT;
    return value;
  }

  scalar(type) {
    if (type === "float") {
      this.at += 8;
      return this.view.getFloat64(this.at - 8);
    }
    const word = this.word();
    return type === "half" ? Number(BigInt.asIntN(32, word)) : word;
  }

  /** A pattern that is repeated up to the length, and patches on it. Floats stay their bits. */
  buffer(type) {
    const array = new ARRAYS[type](this.count());
    const period = this.count();
    const pattern = Array.from({ length: period }, () => this.element(type));
    for (let i = 0; period && i < array.length; i++) array[i] = pattern[i % period];
    for (let patches = this.count(); patches > 0; patches--) {
      const place = this.count();
      array[place] = this.element(type);
    }
    return array;
  }
}

/** Plays every call of a file, and hands over each one's kind and line as it comes. */
export function* play(library, calls, bytes) {
  const stream = new Stream(bytes);
  for (let kind = stream.byte(); kind; kind = stream.byte()) yield [kind, line(library, calls, kind, stream)];
}

/** The lines that are expected, without the one that counts them. */
export function expectedLines(text) {
  return text.trimEnd().split("\n").filter((each) => !each.startsWith("cases "));
}

function line(library, calls, kind, stream) {
  const { call, file, lent, written = "", numbers } = calls.kinds[kind];
  const [scalars, buffers] = file.split("|").map(names);
  const read = {};
  for (const name of scalars) read[name] = stream.scalar(calls.types[name]);
  for (const name of buffers) read[name] = stream.buffer(calls.types[name]);
  const rooms = names(written).map((name) => [name, read[name]]);
  const before = rooms.map(([, room]) => room.slice());
  const out = library.numbers(call, names(lent).map((name) => read[name]), rooms.map(([, room]) => room));
  const shown = rooms.flatMap(([name, room], k) => roomShown(calls.types[name], before[k], room));
  return [kind, ...out.slice(0, numbers), ...shown].join(" ");
}

function names(text) {
  return text.split(" ").filter(Boolean);
}

/** A guider and floats as they are after the call; of other rooms the sums before and after. */
function roomShown(type, before, after) {
  if (type === "i64") return Array.from(after);
  if (type === "f64") return Array.from(after, floatShown);
  return [checksum(before), checksum(after)];
}

function checksum(room) {
  return room.reduce((sum, element) => (31 * sum + element + 1) % MODULUS, 0);
}

/** A float by its bits; all that are no number are shown alike. */
function floatShown(bits) {
  const exponent = (bits >> 52n) & 0x7ffn;
  const none = exponent === 0x7ffn && (bits & 0xfffffffffffffn) !== 0n;
  return none ? 0xffffffffffffffffn : bits;
}
