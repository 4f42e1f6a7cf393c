/** A raster as a picture, with the value under the pointer. Arrow keys move the point. */
import { el } from "./dom.js";

const STEPS = { ArrowUp: [-1, 0], ArrowDown: [1, 0], ArrowLeft: [0, -1], ArrowRight: [0, 1] };

export class PictureView {
  #canvas = el("canvas", { tabindex: 0, role: "img", width: 1, height: 1 });
  #mark = el("div", { class: "point", hidden: true });
  #area = el("div", { class: "marked-area", hidden: true });
  #frame = el("div", { class: "frame" }, this.#canvas, this.#area, this.#mark);
  #readout = el("output", { class: "readout", "aria-live": "polite" }, " ");
  #caption = el("figcaption", {});
  #onpoint;
  raster = null;
  point = null;

  /** Puts the view into an element. `onpoint` hears of each point that the user chooses, by its row and column. */
  constructor(host, onpoint = () => {}) {
    this.#onpoint = onpoint;
    host.append(el("figure", {}, this.#caption, this.#frame, this.#readout));
    this.#canvas.addEventListener("pointermove", (event) => this.#pointed(event));
    this.#canvas.addEventListener("pointerdown", (event) => this.#pointed(event));
    this.#canvas.addEventListener("keydown", (event) => this.#pressed(event));
  }

  /** Shows a raster under a name; the values from `low` to `high` are black to white. */
  show(raster, name, caption, low, high) {
    this.raster = raster;
    this.name = name;
    raster.draw(this.#canvas, low, high);
    this.#frame.style.setProperty("--ratio", raster.cols / raster.rows);
    this.#canvas.setAttribute("aria-label", `${name}: ${raster.rows} rows and ${raster.cols} columns; arrow keys move the point`);
    this.#caption.textContent = caption;
    if (this.point) this.showPoint(...this.point);
  }

  /** Marks a point, and tells the value there. */
  showPoint(row, col) {
    if (!this.raster) return;
    const values = this.raster.at(row, col);
    this.point = values ? [row, col] : null;
    this.#mark.hidden = !values;
    this.#readout.textContent = values ? `${this.name}(${row}, ${col}) = ${values.join(", ")}` : " ";
    if (values) this.#put(this.#mark, row, row, col, col);
  }

  /** Frames some rows and columns; none where there are none. */
  frame(area) {
    this.#area.hidden = !area;
    if (area) this.#put(this.#area, ...area);
  }

  #put(element, top, bottom, left, right) {
    const { raster } = this;
    const percent = (value, from, count) => `${(100 * (value - from)) / (count * raster.step)}%`;
    Object.assign(element.style, {
      top: percent(top, raster.top, raster.rows),
      left: percent(left, raster.left, raster.cols),
      height: percent(bottom + raster.step, top, raster.rows),
      width: percent(right + raster.step, left, raster.cols),
    });
  }

  #pointed(event) {
    if (!this.raster) return;
    const box = this.#canvas.getBoundingClientRect();
    this.choose(...this.raster.point((event.clientY - box.top) / box.height, (event.clientX - box.left) / box.width));
  }

  #pressed(event) {
    const step = STEPS[event.key];
    if (!step || !this.raster) return;
    event.preventDefault();
    const far = this.raster.step * (event.shiftKey ? 10 : 1);
    const [row, col] = this.point ?? this.raster.point(0.5, 0.5);
    const moved = [row + step[0] * far, col + step[1] * far];
    if (this.raster.at(...moved)) this.choose(...moved);
  }

  /** Shows a point and tells it. */
  choose(row, col) {
    this.showPoint(row, col);
    this.#onpoint(row, col);
  }
}
