// Plays the recorded calls through the module in node: recorded.mjs MODULE.wasm CASES EXPECTED. Ends with 1 where one answers otherwise.
import { readFileSync } from "node:fs";
import { Library } from "../scripts/library.mjs";
import { expectedLines, play } from "../scripts/recorded.mjs";

const [module, cases, expected] = process.argv.slice(2);
const calls = JSON.parse(readFileSync(new URL("../calls.json", import.meta.url)));
const library = await Library.load(readFileSync(module));
const lines = expectedLines(readFileSync(expected, "utf8"));
const began = performance.now();
let played = 0;
let wrong = 0;
for (const [, line] of play(library, calls, readFileSync(cases))) {
  if (line !== lines[played] && ++wrong <= 5) console.log(`call ${played}: ${line.slice(0, 200)}\n  expected ${lines[played]?.slice(0, 200)}`);
  played++;
}
console.log(`${played} of ${lines.length} recorded calls played, ${wrong} answered otherwise, ${Math.round(performance.now() - began)} ms`);
process.exit(wrong || played !== lines.length ? 1 : 0);
