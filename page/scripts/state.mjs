// What the page holds, and who draws it anew when something changed.

export const state = {
  library: null,
  texts: null,
  made: null,
  settings: null,
  loaded: null,
  catalogue: null,
  before: null,
  cut: null,
  frames: [],
  current: 0,
  kept: null,
  solution: null,
  marks: null,
  measured: null,
  hints: [],
  pixel: null,
  reason: null,
  stretch: "asinh",
  shown: true,
  guiding: { setting: false, halfWidth: 5, start: 0, guides: [] },
  runs: [],
  milliseconds: 0,
};

const renderers = [];
let waiting = false;

/** A function that draws a part of the page from the state. */
export function onRender(render) {
  renderers.push(render);
}

/** Draws everything anew, once, before the browser shows its next picture. */
export function changed() {
  if (waiting) return;
  waiting = true;
  requestAnimationFrame(() => {
    waiting = false;
    for (const render of renderers) render();
  });
}

export function currentFrame() {
  return state.frames[state.current] ?? null;
}

export const element = (id) => document.getElementById(id);

/** A new element with its properties and children. */
export function make(tag, properties = {}, ...children) {
  const made = Object.assign(document.createElement(tag), properties);
  made.append(...children.filter((child) => child !== null));
  return made;
}

/** Puts children in the place of those before, unless they are the same: then who listens is not told twice, and what has the focus keeps it. */
export function fillWith(parent, ...children) {
  const fresh = make(parent.tagName, {}, ...children);
  if (fresh.innerHTML !== parent.innerHTML) parent.replaceChildren(...fresh.childNodes);
}
