// exports.mjs MODULE.wasm HEADER.h: the module hands out the header's calls, its memory and what is lent, and needs nothing from outside.
import { readFileSync } from "node:fs";

const [file, header] = process.argv.slice(2);
const module = new WebAssembly.Module(readFileSync(file));
const calls = Array.from(readFileSync(header, "utf8").matchAll(/^void (mnemathor_\w+)\(/gm), ([, name]) => name);
const wanted = [...calls, "lent", "lent_bytes", "memory"].sort();
const found = WebAssembly.Module.exports(module).map(({ name }) => name).sort();
const needed = WebAssembly.Module.imports(module);
if (calls.length < 20 || wanted.join() !== found.join() || needed.length) {
  console.log(`exports ${found.join(" ")}; imports ${needed.map(({ name }) => name).join(" ") || "nothing"}`);
  process.exit(1);
}
