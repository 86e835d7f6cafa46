// What is drawn with: the colours of the style sheet, the shapes of the marks, letters, and a canvas made ready for a plot.

const LETTERS = "12px system-ui, sans-serif";
let palette = { mode: null, colours: new Map() };

/** A colour of the style sheet, as it is in the light that is on. */
export function colour(name) {
  const root = document.documentElement;
  if (palette.mode !== root.className) palette = { mode: root.className, colours: new Map() };
  if (!palette.colours.has(name)) palette.colours.set(name, getComputedStyle(root).getPropertyValue(`--${name}`).trim());
  return palette.colours.get(name);
}

// Marks: each function strokes one shape around a point.

const SHAPES = {
  ring: (context, x, y, size) => context.arc(x, y, size, 0, 2 * Math.PI),
  square: (context, x, y, size) => context.rect(x - size, y - size, 2 * size, 2 * size),
  cross: (context, x, y, size) => lines(context, [[x - size, y - size, x + size, y + size], [x - size, y + size, x + size, y - size]]),
  plus: (context, x, y, size) => lines(context, [[x - size, y, x + size, y], [x, y - size, x, y + size]]),
  star: (context, x, y, size) => {
    SHAPES.plus(context, x, y, size);
    SHAPES.cross(context, x, y, 0.75 * size);
  },
  triangle: (context, x, y, size) => polygon(context, [[x, y - size], [x + size, y + 0.8 * size], [x - size, y + 0.8 * size]]),
  diamond: (context, x, y, size) => polygon(context, [[x, y - size], [x + size, y], [x, y + size], [x - size, y]]),
};

/** Which shape and colour stands for what. */
export const MARKS = {
  named: { shape: "ring", label: "named star" },
  unnamed: { shape: "ring", label: "listed, no name", dashed: true },
  unlisted: { shape: "triangle", label: "measured, not listed" },
  edge: { shape: "square", label: "edge" },
  lone: { shape: "cross", label: "lone, a hot pixel" },
  catalogue: { shape: "plus", label: "catalogue star" },
  added: { shape: "star", label: "new or changed in the catalogue" },
  removed: { shape: "diamond", label: "only in the catalogue before" },
};

function lines(context, parts) {
  for (const [x, y, toX, toY] of parts) {
    context.moveTo(x, y);
    context.lineTo(toX, toY);
  }
}

function polygon(context, points) {
  points.forEach(([x, y], k) => (k ? context.lineTo(x, y) : context.moveTo(x, y)));
  context.closePath();
}

/** Strokes a mark, with a dark edge so that it shows on stars too. */
export function stroke(context, kind, x, y, size, name = kind) {
  const { shape, dashed } = MARKS[kind] ?? { shape: kind };
  context.setLineDash(dashed ? [4, 3] : []);
  for (const [width, ink] of [[3.5, colour("halo")], [1.6, colour(name)]]) {
    context.beginPath();
    SHAPES[shape](context, x, y, size);
    context.lineWidth = width;
    context.strokeStyle = ink;
    context.stroke();
  }
  context.setLineDash([]);
}

export function write(context, text, x, y, name, align = "left") {
  context.font = LETTERS;
  context.textAlign = align;
  context.textBaseline = "middle";
  context.lineWidth = 3;
  context.strokeStyle = colour("halo");
  context.strokeText(text, x, y);
  context.fillStyle = colour(name);
  context.fillText(text, x, y);
}

/** A glyph of the legend. */
export function glyph(canvas, kind) {
  const ratio = window.devicePixelRatio || 1;
  [canvas.width, canvas.height] = [18 * ratio, 18 * ratio];
  const context = canvas.getContext("2d");
  context.setTransform(ratio, 0, 0, ratio, 0, 0);
  stroke(context, kind, 9, 9, 6);
}

/** A canvas cleared for a drawing in its own size; hands back its pen and size. */
export function plotOn(canvas) {
  const ratio = window.devicePixelRatio || 1;
  const [wide, tall] = [canvas.clientWidth, canvas.clientHeight];
  if (canvas.width !== Math.round(wide * ratio)) canvas.width = Math.round(wide * ratio);
  if (canvas.height !== Math.round(tall * ratio)) canvas.height = Math.round(tall * ratio);
  const context = canvas.getContext("2d");
  context.setTransform(ratio, 0, 0, ratio, 0, 0);
  context.fillStyle = colour("sky");
  context.fillRect(0, 0, wide, tall);
  return { context, wide, tall };
}
