// The self-test: plays the recorded calls that the page has through its own module, and counts the answers that are as recorded.
import { expectedLines, play } from "./recorded.mjs";
import { element, state } from "./state.mjs";
import { plural, thousands } from "./words.mjs";

const SLICE = 40;

/** Plays all calls, some milliseconds at a time, and tells how far it is. */
async function selfTest(calls, { cases, expected, of }) {
  const lines = expectedLines(expected);
  const began = performance.now();
  const bar = element("self-test-bar");
  Object.assign(bar, { hidden: false, max: lines.length, value: 0 });
  let [played, right, until] = [0, 0, performance.now() + SLICE];
  for (const [, line] of play(state.library, calls, cases)) {
    if (line === lines[played]) right++;
    bar.value = ++played;
    if (performance.now() < until) continue;
    await new Promise((resume) => setTimeout(resume, 0));
    until = performance.now() + SLICE;
  }
  bar.hidden = true;
  return told(played, right, lines.length, of, performance.now() - began);
}

function told(played, right, expected, of, milliseconds) {
  const good = right === played && played === expected;
  const some = `${thousands(expected)} of the ${thousands(of)} recorded calls, some of every kind, which this page has inside`;
  const which = expected === of ? `all ${thousands(of)} recorded calls` : some;
  const seconds = (milliseconds / 1000).toFixed(1);
  const count = `${thousands(right)} of ${plural(expected, "answer")} as recorded`;
  return { good, text: `${good ? "Passed" : "FAILED"}: ${count}, in ${seconds} s (${which}).` };
}

/** The button; the calls are unpacked when it is pressed, and the frame in the module's memory is lent anew afterwards. */
export function startSelfTest(calls, unpacked, after) {
  const button = element("self-test");
  button.addEventListener("click", async () => {
    button.disabled = true;
    const { good, text } = await selfTest(calls, await unpacked());
    element("self-test-told").textContent = text;
    element("self-test-told").className = good ? "accepted" : "refused";
    button.disabled = false;
    after();
  });
}
