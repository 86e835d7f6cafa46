// The camera on the sky: pointing, angles, and where a star falls in the frame. Not proved: it only shows what the library's matrix says.

export const DEGREE = Math.PI / 180;
export const ARCSEC = DEGREE / 3600;
const PIXEL = 256;

const dot = (a, b) => a[0] * b[0] + a[1] * b[1] + a[2] * b[2];
const cross = (a, b) => [a[1] * b[2] - a[2] * b[1], a[2] * b[0] - a[0] * b[2], a[0] * b[1] - a[1] * b[0]];
const round = (angle) => ((angle % 360) + 360) % 360;

/** Right ascension and declination of a direction, in degrees. */
export function placeOf([x, y, z]) {
  return { ra: round(Math.atan2(y, x) / DEGREE), dec: Math.atan2(z, Math.hypot(x, y)) / DEGREE };
}

/** The pointing of nine direction cosines, whose rows are right, down and out to the sky; roll is the position angle of the frame's upward direction. */
export function pointingOf(rows) {
  const down = rows.slice(3, 6);
  const { ra, dec } = placeOf(rows.slice(6, 9));
  const [a, d] = [ra * DEGREE, dec * DEGREE];
  const east = [-Math.sin(a), Math.cos(a), 0];
  const north = [-Math.sin(d) * Math.cos(a), -Math.sin(d) * Math.sin(a), Math.cos(d)];
  return { ra, dec, roll: round(Math.atan2(-dot(down, east), -dot(down, north)) / DEGREE) };
}

/** Where a direction of the sky falls, in pixels; null where that is behind the camera. */
export function projected(rows, vector, settings) {
  const [right, down, out] = [0, 3, 6].map((at) => dot(rows.slice(at, at + 3), vector));
  if (out <= 1e-6) return null;
  return { column: (settings.cx + (settings.focal * right) / out) / PIXEL, row: (settings.cy + (settings.focal * down) / out) / PIXEL };
}

export function inside(place, settings) {
  return place !== null && place.column > -0.5 && place.column < settings.width - 0.5 && place.row > -0.5 && place.row < settings.height - 0.5;
}

/** The place on the sky that a position of the frame shows. */
export function placeAt(rows, column, row, settings) {
  const seen = [PIXEL * column - settings.cx, PIXEL * row - settings.cy, settings.focal];
  return placeOf([0, 1, 2].map((axis) => dot(seen, [rows[axis], rows[3 + axis], rows[6 + axis]])));
}

/** North and east at the frame's middle, as steps to the right and down of length 1; null at a pole. */
export function compass(rows) {
  const [x, y, z] = rows.slice(6, 9);
  if (Math.hypot(x, y) < 1e-4) return null;
  const north = [-z * x, -z * y, x * x + y * y];
  const step = (vector) => {
    const [right, down] = [dot(rows.slice(0, 3), vector), dot(rows.slice(3, 6), vector)];
    const length = Math.hypot(right, down);
    return [right / length, down / length];
  };
  return { north: step(north), east: step([-y, x, 0]) };
}

/** The angle between two directions, in arc seconds. */
export function angleBetween(a, b) {
  return Math.atan2(Math.hypot(...cross(a, b)), dot(a, b)) / ARCSEC;
}

/** The angle, in arc seconds, that a tolerance lets two directions of such a separation (degrees) be farther apart. */
export function angleOf(tolerance, separation) {
  const cosine = Math.cos(separation * DEGREE) - Number(tolerance) / 1e18;
  return (Math.acos(Math.max(-1, Math.min(1, cosine))) - separation * DEGREE) / ARCSEC;
}

/** The angles of the frame's width and height, in degrees. */
export function field(settings) {
  return [settings.width, settings.height].map((side) => (2 * Math.atan((side * PIXEL) / (2 * settings.focal))) / DEGREE);
}

/** Hours or degrees with minutes and seconds, rounded before it is taken apart. */
export function sexagesimal({ ra, dec }) {
  const hours = parts((Math.round(ra * 24000) % 8640000) / 100, 2);
  const degrees = parts(Math.round(Math.abs(dec) * 36000) / 10, 1);
  return { ra: hours, dec: (dec < 0 ? "-" : "+") + degrees };
}

function parts(seconds, digits) {
  const two = (number) => String(number).padStart(2, "0");
  const whole = Math.floor(seconds / 60);
  const rest = (seconds - 60 * whole).toFixed(digits).padStart(digits + 3, "0");
  return `${two(Math.floor(whole / 60))}:${two(whole % 60)}:${rest}`;
}
