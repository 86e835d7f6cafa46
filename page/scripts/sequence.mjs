// Many frames: each solved in the background, a time line of counts, refusals and pointing, and play.
import { colour, plotOn } from "./pen.mjs";
import { angleBetween } from "./sky.mjs";
import { changed, currentFrame, element, onRender, state } from "./state.mjs";
import { onRest, solutionOf, solveNow } from "./work.mjs";

const SLICE = 25;
let playing = null;
let key = null;

/** What the runs were made with; another key means that they are out of date. */
function keyNow() {
  const { settings, catalogue } = state;
  return settings && [...Object.values(settings), catalogue?.serial].join();
}

/** The run of a frame: its list for the guider, and what the time line shows. */
export function runOf(place) {
  if (key !== keyNow()) {
    key = keyNow();
    state.runs = [];
  }
  state.runs[place] ??= summary(solutionOf(state.frames[place].samples));
  return state.runs[place];
}

function summary({ refusal, list, pointing = null, rows }) {
  return { refusal, list, pointing, axis: rows?.slice(6, 9) ?? null };
}

/** Runs the frames that have none yet, some milliseconds at a time. */
function runRest() {
  const until = performance.now() + SLICE;
  for (let place = 0; place < state.frames.length; place++) {
    if (key === keyNow() && state.runs[place]) continue;
    runOf(place);
    if (performance.now() < until) continue;
    changed();
    setTimeout(runRest, 0);
    return;
  }
  changed();
}

/** Shows another frame. */
export function goTo(place) {
  state.current = Math.max(0, Math.min(state.frames.length - 1, place));
  solveNow();
}

export function play(on = playing === null) {
  clearInterval(playing);
  playing = on && state.frames.length > 1 ? setInterval(step, 1000 / Number(element("speed").value)) : null;
  element("play").textContent = playing === null ? "Play" : "Pause";
  element("play").setAttribute("aria-pressed", String(playing !== null));
}

function step() {
  if (state.current >= state.frames.length - 1) play(false);
  else goTo(state.current + 1);
}

export function startSequence() {
  onRest(runRest);
  onRender(render);
  element("play").addEventListener("click", () => {
    if (playing === null && state.current >= state.frames.length - 1) goTo(0);
    play();
  });
  element("speed").addEventListener("change", () => playing !== null && play(true));
  element("back").addEventListener("click", () => goTo(state.current - 1));
  element("forth").addEventListener("click", () => goTo(state.current + 1));
  element("place").addEventListener("input", (event) => goTo(Number(event.target.value)));
  element("times").addEventListener("pointerdown", (event) => {
    const { left, width } = event.target.getBoundingClientRect();
    goTo(Math.floor(((event.clientX - left) / width) * state.frames.length));
  });
}

function render() {
  element("timeline").hidden = state.frames.length < 2;
  if (state.frames.length < 2) return;
  const place = element("place");
  place.max = state.frames.length - 1;
  place.value = state.current;
  const frame = currentFrame();
  place.setAttribute("aria-valuetext", `frame ${state.current + 1} of ${state.frames.length}, ${frame.name}`);
  const parts = [`${state.current + 1} of ${state.frames.length}`, frame.name, frame.date, counted()];
  element("told").textContent = parts.filter(Boolean).join(" · ");
  drawTimes(element("times"));
}

/** How many frames are accepted and refused so far. */
function counted() {
  const runs = state.runs.filter(Boolean);
  const refused = new Map();
  for (const { refusal } of runs) if (refusal) refused.set(refusal.number, (refused.get(refusal.number) ?? 0) + 1);
  const told = [...refused].sort(([a], [b]) => a - b).map(([number, count]) => `${count} with ${number}`);
  const accepted = runs.filter(({ refusal }) => !refusal).length;
  return `${accepted} accepted${told.length ? `, refused ${told.join(", ")}` : ""}${runs.length < state.frames.length ? ", …" : ""}`;
}

/** Bars for the measured pixels, a cross below for each refusal, and lines for the axis' way and the roll. */
function drawTimes(canvas) {
  const { context, wide, tall } = plotOn(canvas);
  const each = wide / state.frames.length;
  const most = Math.max(8, ...state.runs.filter(Boolean).map(({ list }) => list.measured));
  context.fillStyle = colour("here");
  context.fillRect(each * state.current, 0, Math.max(2, each), tall);
  state.runs.forEach((run, k) => {
    const high = ((tall - 14) * Math.min(run.list.measured, most)) / most;
    context.fillStyle = colour(run.refusal ? "refused" : "accepted");
    context.fillRect(each * k + each * 0.2, tall - 12 - high, Math.max(1, each * 0.6), high);
    context.font = "9px system-ui, sans-serif";
    context.textAlign = "center";
    if (run.refusal) context.fillText(each > 9 ? String(run.refusal.number) : "×", each * (k + 0.5), tall - 3);
  });
  const first = state.runs.find((run) => run?.axis);
  if (!first) return;
  const roll = (run) => ((run.pointing.roll - first.pointing.roll + 540) % 360) - 180;
  line(context, (run) => angleBetween(first.axis, run.axis) / 3600, "axis", each, tall);
  line(context, roll, "roll", each, tall);
}

/** A line through the accepted frames, from the least value at the bottom to the largest at the top. */
function line(context, value, name, each, tall) {
  const points = state.runs.map((run, k) => (run?.axis ? [each * (k + 0.5), value(run)] : null));
  const values = points.filter(Boolean).map(([, y]) => y);
  const [low, high] = [Math.min(...values), Math.max(...values)];
  context.strokeStyle = colour(name);
  context.lineWidth = 1.5;
  context.beginPath();
  points.forEach((point, k) => {
    if (!point) return;
    const y = 4 + (tall - 20) * (1 - (point[1] - low) / (high - low || 1));
    points[k - 1] ? context.lineTo(point[0], y) : context.moveTo(point[0], y);
    context.fillStyle = colour(name);
    context.fillRect(point[0] - 1, y - 1, 2, 2);
  });
  context.stroke();
}
