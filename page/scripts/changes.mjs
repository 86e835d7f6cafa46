// What changed from the catalogue before to the one in use, by the library's own comparison.
import { state } from "./state.mjs";

export const CHANGES = ["", "removed", "added", "changed"];
let compared = { key: null, changes: [], kinds: new Map() };

/** The list of changes, asked for once for each pair of catalogues. */
export function changesNow() {
  compare();
  return compared.changes;
}

/** The kind of change of each star that changed, by identity. */
export function kindsNow() {
  compare();
  return compared.kinds;
}

function compare() {
  const { catalogue, before, library } = state;
  const key = catalogue && before ? `${before.serial} ${catalogue.serial}` : "none";
  if (compared.key === key) return;
  const { changes } = key === "none" ? { changes: [] } : library.compare(before.bytes, catalogue.bytes);
  compared = { key, changes, kinds: new Map(changes.map(({ identity, kind }) => [identity, kind])) };
}
