// Which part of the frame the canvas shows: zoom, drag and pinch. Positions are pixels of the frame, whose centre is a whole number.

const MOST = 96;

export class View {
  constructor() {
    this.scale = 1;
    this.left = 0;
    this.top = 0;
    this.wide = 1;
    this.tall = 1;
    this.fitted = true;
  }

  /** The whole frame, in the middle. */
  fit(frame) {
    this.scale = Math.min(this.wide / frame.width, this.tall / frame.height);
    this.left = (this.wide - this.scale * frame.width) / 2;
    this.top = (this.tall - this.scale * frame.height) / 2;
    this.fitted = true;
  }

  /** Another size of the canvas; what was in its middle stays there. */
  resize(wide, tall, frame) {
    this.left += (wide - this.wide) / 2;
    this.top += (tall - this.tall) / 2;
    [this.wide, this.tall] = [wide, tall];
    if (this.fitted && frame) this.fit(frame);
  }

  across(column) {
    return this.left + (column + 0.5) * this.scale;
  }

  down(row) {
    return this.top + (row + 0.5) * this.scale;
  }

  /** The pixel under a point of the canvas. */
  at(x, y) {
    return { column: (x - this.left) / this.scale - 0.5, row: (y - this.top) / this.scale - 0.5 };
  }

  /** Enlarges by a factor; the point stays where it is. */
  zoom(factor, x = this.wide / 2, y = this.tall / 2) {
    const scale = Math.max(0.1, Math.min(MOST, this.scale * factor));
    this.left = x - ((x - this.left) * scale) / this.scale;
    this.top = y - ((y - this.top) * scale) / this.scale;
    this.scale = scale;
    this.fitted = false;
  }

  move(x, y) {
    this.left += x;
    this.top += y;
    this.fitted = false;
  }

  /** Moves as little as shows a pixel with some room around it. */
  show(row, column) {
    const edge = Math.min(60, this.wide / 4, this.tall / 4);
    const [x, y] = [this.across(column), this.down(row)];
    const by = (place, side) => (place < edge ? edge - place : place > side - edge ? side - edge - place : 0);
    const [right, down] = [by(x, this.wide), by(y, this.tall)];
    if (right || down) this.move(right, down);
  }
}
