// A star list as text becomes records: the columns' usual names are known, text is hours and degrees, and what cannot be read is left out and told.
import { Mistake } from "./images.mjs";

const SEPARATORS = ["\t", ";", "|", ","];
const GAPS = ["", "-", "~", "null", "nan", '""'];
const MOST_STARS = 512;
const UNIT = 1e9;

/** The records of a star list by rising identity, at most the 512 brightest, and what there is to tell. `hours` says what bare right ascensions are. */
export function readStarList(text, guesses, hours) {
  const { names, rows } = cells(text);
  const places = columns(names, guesses);
  const hourly = areHours(rows, names, places, hours);
  const left = new Map();
  const records = rows.map((row) => record(row, places, hourly, left)).filter(Boolean);
  if (!records.length) throw new Mistake(`none of its ${rows.length} rows can be read as a star`);
  const { kept, notes } = brightest(once(records, left));
  for (const [reason, count] of left) notes.push(`${count} left out: ${reason}`);
  return { records: kept.sort((a, b) => a.identity - b.identity), notes };
}

/** Whether a text has columns at all. */
export function isStarList(text) {
  const first = text.split(/\r?\n/).find((line) => line.trim() && !line.startsWith("#")) ?? "";
  return SEPARATORS.some((separator) => first.split(separator).length > 2);
}

/** The names in the head, and the rows below it; VizieR has a line of units and one of dashes between them. */
function cells(text) {
  const lines = text.split(/\r?\n/).filter((line) => line.trim() && !line.startsWith("#"));
  const separator = SEPARATORS.reduce((best, each) => (lines[0].split(each).length > lines[0].split(best).length ? each : best));
  const split = lines.map((line) => line.split(separator).map((cell) => cell.trim().replace(/^"(.*)"$/, "$1")));
  const dashes = [1, 2].find((k) => split[k]?.every((cell) => /^-+$/.test(cell)));
  const names = split[0];
  return { names, rows: split.slice((dashes ?? 0) + 1).filter((row) => row.length === names.length) };
}

function columns(names, guesses) {
  const lower = names.map((name) => name.toLowerCase());
  const found = Object.entries(guesses).map(([key, usual]) => [key, lower.indexOf(usual.find((guess) => lower.includes(guess)))]);
  const lacking = found.filter(([, place]) => place < 0).map(([key]) => key);
  const others = "./mnemathor catalogue takes other names with --columns";
  if (lacking.length) throw new Mistake(`no column found for ${lacking.join(", ")}, of ${names.join(", ")}; ${others}`);
  return Object.fromEntries(found);
}

/** Whether right ascensions are hours: text is; numbers that could be are asked about. */
function areHours(rows, names, places, hours) {
  const values = rows.map((row) => Number(row[places.ra])).filter(Number.isFinite);
  if (2 * values.length < rows.length) return true;
  if (hours !== undefined) return hours;
  if (/deg/i.test(names[places.ra])) return false;
  const [least, most] = values.reduce(([low, high], value) => [Math.min(low, value), Math.max(high, value)], [Infinity, -Infinity]);
  if (values.length > 1 && least >= 0 && most < 24) {
    throw new Mistake(`its right ascensions go from ${least} to ${most}: hours, or degrees?`, [
      { label: "Hours", hours: true },
      { label: "Degrees", hours: false },
    ]);
  }
  return false;
}

/** One row as a record; a row that cannot be read is counted by its reason. */
function record(row, places, hourly, left) {
  const drop = (reason) => {
    left.set(reason, (left.get(reason) ?? 0) + 1);
    return null;
  };
  const cell = (key) => row[places[key]];
  if (Object.keys(places).some((key) => GAPS.includes(cell(key).toLowerCase()))) return drop("a gap in the row");
  const identity = Number(cell("identity"));
  if (!Number.isInteger(identity) || identity < 0 || identity > 0xffffffff) return drop("the identity is no whole number of 4 bytes");
  const [ra, dec] = [angle(cell("ra"), hourly ? 15 : 1), angle(cell("dec"), 1)];
  if (!(dec >= -90 && dec <= 90) || !(ra >= -360 && ra <= 360)) return drop("the place cannot be read");
  const magnitude = nearest(Number(cell("magnitude")) * 1000);
  if (!(magnitude >= -2000 && magnitude <= 12000)) return drop("the magnitude is not -2 to 12");
  const [a, d] = [(ra * Math.PI) / 180, (dec * Math.PI) / 180];
  const [x, y, z] = [Math.cos(d) * Math.cos(a), Math.cos(d) * Math.sin(a), Math.sin(d)].map((part) => nearest(part * UNIT));
  return { identity, x, y, z, magnitude };
}

/** A number, or parts such as 05:35:17.3 or -5 23 28, in degrees; NaN where it is none. */
function angle(cell, unit) {
  const parts = cell.split(/[:\s]+/);
  if (parts.length === 1) return Number(cell) * unit;
  const [whole, minutes, seconds = 0] = parts.map(Number);
  return (cell.startsWith("-") ? -1 : 1) * (Math.abs(whole) + minutes / 60 + seconds / 3600) * unit;
}

/** The nearest whole number, of two the even one. */
function nearest(value) {
  const whole = Math.round(value);
  return Math.abs(value % 1) === 0.5 && whole % 2 ? whole - 1 : whole;
}

/** Each identity once: the first that has it. */
function once(records, left) {
  const seen = new Map();
  for (const each of records) if (!seen.has(each.identity)) seen.set(each.identity, each);
  if (seen.size < records.length) left.set("an identity that an earlier row has", records.length - seen.size);
  return [...seen.values()];
}

function brightest(records) {
  if (records.length <= MOST_STARS) return { kept: records, notes: [`${records.length} stars`] };
  const ranked = [...records].sort((a, b) => a.magnitude - b.magnitude || a.identity - b.identity);
  const faintest = (ranked[MOST_STARS - 1].magnitude / 1000).toFixed(2);
  return { kept: ranked.slice(0, MOST_STARS), notes: [`the ${MOST_STARS} brightest of ${records.length} stars, to magnitude ${faintest}`] };
}
