/** One stage at full size: its values, their range and their histogram. */
import { el, grouped } from "./dom.js";
import { PictureView } from "./picture_view.js";
import { plot } from "./plot.js";

const NEAR = [-2, -1, 0, 1, 2];

export class StageView {
  #body;
  #title = el("h3", {}, "");
  #says = el("p", { class: "says" });
  #bounds = el("select", { "aria-label": "Values shown as black to white" }, el("option", { value: "range" }, "least to greatest"),
    el("option", { value: "inner" }, "the middle 98 percent"), el("option", { value: "sample" }, "0 to 255"));
  #histogram = el("div", {});
  #near = el("table", { class: "near", "aria-label": "Values about the point" });
  #picture;
  #raster = null;

  constructor(host, onpoint) {
    const picture = el("div", {});
    this.#body = el("div", {}, picture, this.#near, this.#histogram);
    host.append(el("div", { class: "heading" }, this.#title, el("label", {}, "black to white: ", this.#bounds)), this.#says, this.#body);
    this.#picture = new PictureView(picture, (row, col) => {
      this.#showNear(row, col);
      onpoint(row, col);
    });
    this.#bounds.addEventListener("change", () => this.#draw());
    this.hide();
  }

  /** The stage that is open, if one is. */
  name = null;

  /** Shows a stage; `raster` has its values. */
  show(stage, raster) {
    this.#open(stage, true);
    this.#raster = raster;
    const [low, high] = raster.range();
    const every = raster.step > 1 ? `, each ${raster.step}th row and column` : "";
    this.#says.textContent = `rows ${stage.rows.join(" to ")}, columns ${stage.cols.join(" to ")}${every}; values ${grouped(low)} to ${grouped(high)}`;
    this.#draw();
    const { low: first, width, bins } = raster.histogram();
    const label = (at) => (width === 1 ? `${first + at}` : `${first + at * width} to ${first + (at + 1) * width - 1}`);
    this.#histogram.replaceChildren(plot({ name: `values of ${stage.name}`, bins, label, words: bins.map(grouped) }));
    if (this.#picture.point) this.#showNear(...this.#picture.point);
  }

  /** Shows why a stage has no values here. */
  refuse(stage, why) {
    this.#open(stage, false);
    this.#says.textContent = `No values can be shown: ${why}.`;
  }

  /** Shows no stage. */
  hide() {
    this.name = null;
    this.#title.textContent = "Choose a stage";
    this.#says.textContent = "It is shown here at full size, with its values, their range and their histogram.";
    this.#hideValues(true);
  }

  #open(stage, hasValues) {
    this.name = stage.name;
    this.#title.textContent = stage.name;
    this.#hideValues(!hasValues);
  }

  #hideValues(areHidden) {
    this.#body.hidden = areHidden;
    this.#bounds.parentElement.hidden = areHidden;
  }

  /** Marks a point that was chosen in another picture. */
  showPoint(row, col) {
    if (!this.name || this.#body.hidden) return;
    this.#picture.showPoint(row, col);
    this.#showNear(row, col);
  }

  #draw() {
    const ways = { range: () => this.#raster.range(), inner: () => this.#raster.innerRange(), sample: () => [0, 255] };
    this.#picture.show(this.#raster, this.name, "", ...ways[this.#bounds.value]());
  }

  /** The values of the points about one, as rows of a table. */
  #showNear(row, col) {
    const { step } = this.#raster;
    const cell = (r, c) => {
      const values = this.#raster.at(row + r * step, col + c * step);
      return el("td", r === 0 && c === 0 ? { class: "middle" } : {}, values ? String(values[0]) : "·");
    };
    this.#near.replaceChildren(...NEAR.map((r) => el("tr", {}, ...NEAR.map((c) => cell(r, c)))));
  }
}
