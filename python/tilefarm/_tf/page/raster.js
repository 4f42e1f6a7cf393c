/** Points in rows and columns, with one value each or three: pictures, results, and stages. */

/** How many bars a histogram has at most. */
const MOST_BARS = 64;

export class Raster {
  /** Point (row, col) of the stage stands at ((row - top) / step, (col - left) / step), where `top` and `left` are such points. */
  constructor({ rows, cols, values, parts = 1, most = null, top = 0, left = 0, step = 1 }) {
    Object.assign(this, { rows, cols, values, parts, most, top, left, step });
  }

  /** The same values, where the first row and column have these numbers. */
  placed(top, left) {
    return new Raster({ ...this, top, left });
  }

  /** The values at a point of the stage, or null where it has none. */
  at(row, col) {
    const r = (row - this.top) / this.step;
    const c = (col - this.left) / this.step;
    const isThere = Number.isInteger(r) && Number.isInteger(c) && r >= 0 && c >= 0 && r < this.rows && c < this.cols;
    if (!isThere) return null;
    const start = (r * this.cols + c) * this.parts;
    return Array.from(this.values.subarray(start, start + this.parts));
  }

  /** The row and the column in the stage of the point that stands so far from the top and the left, in parts of the whole. */
  point(down, across) {
    const inside = (part, count) => Math.min(count - 1, Math.max(0, Math.floor(part * count)));
    return [this.top + inside(down, this.rows) * this.step, this.left + inside(across, this.cols) * this.step];
  }

  /** The least and the greatest value. */
  range() {
    let low = Infinity;
    let high = -Infinity;
    for (const it of this.values) {
      if (it < low) low = it;
      if (it > high) high = it;
    }
    return [low, high];
  }

  /** The range without the hundredth of the values that is least, and the one that is greatest. */
  innerRange() {
    const sorted = this.values.slice().sort();
    const cut = Math.floor(sorted.length / 100);
    return [sorted[cut], sorted[sorted.length - 1 - cut]];
  }

  /** How many values there are in each of some equally wide bins from the least to the greatest. */
  histogram() {
    const [low, high] = this.range();
    const width = Math.ceil((high - low + 1) / MOST_BARS);
    const bins = new Array(Math.ceil((high - low + 1) / width)).fill(0);
    for (const it of this.values) bins[Math.floor((it - low) / width)] += 1;
    return { low, width, bins };
  }

  /** Draws all points on a canvas, the values from `low` to `high` as black to white. */
  draw(canvas, low, high) {
    canvas.width = this.cols;
    canvas.height = this.rows;
    const image = new ImageData(this.cols, this.rows);
    const scale = 255 / Math.max(1, high - low);
    const { data } = image;
    for (let at = 0, from = 0; at < data.length; at += 4, from += this.parts) {
      for (let part = 0; part < 3; part += 1) {
        data[at + part] = (this.values[this.parts === 3 ? from + part : from] - low) * scale;
      }
      data[at + 3] = 255;
    }
    canvas.getContext("2d").putImageData(image, 0, 0);
  }
}

const HEADER = /^P([56])\n(\d+) (\d+)\n(\d+)\n/;

/** The raster of a raw PGM or PPM picture, as the program writes them; null where the bytes are none. */
export function ofNetpbm(bytes) {
  const found = HEADER.exec(new TextDecoder("latin1").decode(bytes.subarray(0, 40)));
  if (!found) return null;
  const [kind, cols, rows, most] = found.slice(1).map(Number);
  const parts = kind === 6 ? 3 : 1;
  const body = bytes.subarray(found[0].length, found[0].length + rows * cols * parts * (most < 256 ? 1 : 2));
  return new Raster({ rows, cols, parts, most, values: most < 256 ? body : wide(body) });
}

/** Samples of two bytes, the most significant first. */
function wide(bytes) {
  const found = new Uint16Array(bytes.length / 2);
  for (let at = 0; at < found.length; at += 1) found[at] = (bytes[2 * at] << 8) | bytes[2 * at + 1];
  return found;
}

/** The values of a stage, from four planes of bytes: the lower half of each value, then its upper half plus 32768. */
export function ofHalves(told, bytes) {
  const count = told.rows * told.cols;
  const plane = (at) => bytes.subarray(at * count, (at + 1) * count);
  const [third, fourth, first, second] = [0, 1, 2, 3].map(plane);
  const values = new Int32Array(count);
  for (let at = 0; at < count; at += 1) {
    values[at] = ((first[at] ^ 0x80) << 24) | (second[at] << 16) | (third[at] << 8) | fourth[at];
  }
  const { rows, cols, step } = told;
  return new Raster({ rows, cols, step, values, top: told.top * step, left: told.left * step });
}
