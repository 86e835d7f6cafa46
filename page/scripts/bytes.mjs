// The camera's own files: settings.bin and catalogue.bin, high byte first.

export const RECORD = 20;
export const SETTINGS_BYTES = 32;
const UNIT = 1e9;
const SHORT = ["width", "height", "threshold", "needed"];
const LONG = ["cx", "cy", "focal"];

/** The settings in settings.bin's 32 bytes; the tolerance is a BigInt. */
export function settingsOf(bytes) {
  const view = new DataView(bytes.buffer, bytes.byteOffset, bytes.byteLength);
  const settings = { tolerance: view.getBigUint64(24) };
  SHORT.forEach((name, k) => (settings[name] = view.getUint16(2 * k)));
  LONG.forEach((name, k) => (settings[name] = view.getUint32(8 + 4 * k)));
  return settings;
}

export function settingsBytes(settings) {
  const bytes = new Uint8Array(SETTINGS_BYTES);
  const view = new DataView(bytes.buffer);
  SHORT.forEach((name, k) => view.setUint16(2 * k, settings[name]));
  LONG.forEach((name, k) => view.setUint32(8 + 4 * k, settings[name]));
  view.setBigUint64(24, settings.tolerance);
  return bytes;
}

/** The settings for frames of another size: the centre goes to the middle. */
export function ofSize(settings, width, height) {
  if (settings.width === width && settings.height === height) return settings;
  const middle = (side) => Math.floor((256 * (side - 1)) / 2);
  return { ...settings, width, height, cx: middle(width), cy: middle(height) };
}

/** The stars of a catalogue's records: identity, direction of length 1, magnitude. */
export function starsOf(catalogue) {
  const view = new DataView(catalogue.buffer, catalogue.byteOffset, catalogue.byteLength);
  return Array.from({ length: Math.floor(catalogue.length / RECORD) }, (_, k) => ({
    identity: view.getUint32(RECORD * k),
    vector: [4, 8, 12].map((place) => view.getInt32(RECORD * k + place) / UNIT),
    magnitude: view.getInt32(RECORD * k + 16) / 1000,
  }));
}

/** Records of whole numbers { identity, x, y, z, magnitude } as a catalogue's bytes. */
export function catalogueBytes(records) {
  const bytes = new Uint8Array(RECORD * records.length);
  const view = new DataView(bytes.buffer);
  records.forEach((record, k) => {
    view.setUint32(RECORD * k, record.identity);
    ["x", "y", "z", "magnitude"].forEach((name, place) => view.setInt32(RECORD * k + 4 + 4 * place, record[name]));
  });
  return bytes;
}

/** A frame file's samples, 2 bytes each. */
export function samplesOf(bytes) {
  const view = new DataView(bytes.buffer, bytes.byteOffset, bytes.byteLength);
  return Uint16Array.from({ length: bytes.length / 2 }, (_, k) => view.getUint16(2 * k));
}
