// A frame as a picture: samples from just below the sky to the brightest, faint ones lifted above the noise.

const LEVELS = 4096;
const SOFT = 0.2;
const STRETCHES = { linear: (part) => part, sqrt: Math.sqrt, asinh: (part) => Math.asinh(part / SOFT) / Math.asinh(1 / SOFT) };

/** The grey of every level, 0 to 255. */
function greys({ sky, noise, brightest }, stretch) {
  const low = Math.max(0, sky - noise);
  const high = Math.max(low + 1, stretch === "linear" || !noise ? brightest : Math.min(brightest, sky + 100 * noise));
  return Uint8ClampedArray.from({ length: LEVELS }, (_, level) => 255 * STRETCHES[stretch](Math.max(0, Math.min(1, (level - low) / (high - low)))));
}

/** The frame on a canvas of its own size; in red light only red is lit. */
export function picture(frame, measured, stretch, red) {
  const canvas = document.createElement("canvas");
  [canvas.width, canvas.height] = [frame.width, frame.height];
  const context = canvas.getContext("2d");
  const image = context.createImageData(frame.width, frame.height);
  const words = new Uint32Array(image.data.buffer);
  const colours = Uint32Array.from(greys(measured, stretch), (grey) => (0xff000000 | (red ? grey : grey * 0x10101)) >>> 0);
  const { samples } = frame;
  for (let at = 0; at < samples.length; at++) words[at] = colours[Math.min(samples[at], LEVELS - 1)];
  context.putImageData(image, 0, 0);
  return canvas;
}
