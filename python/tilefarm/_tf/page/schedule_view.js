/** The schedule: what is inlined where, what it costs, and what a tile needs. */
import { boxes, points, pointsOf, tileAt } from "./boxes.js";
import { el, grouped } from "./dom.js";
import { PictureView } from "./picture_view.js";
import { Raster } from "./raster.js";

export class ScheduleView {
  #onchange;
  #table = el("tbody", {});
  #sum = el("p", { class: "sum" });
  #target = el("select", { id: "target", onchange: () => this.#aim() });
  #needs = el("ul", { class: "needs" });
  #tile = el("p", { class: "says" });
  #picture;
  #controls;
  #stages = [];
  #rasters = new Map();
  /** The tile that is shown. */
  #shown = "";
  options = { rows: 64, cols: 64, percent: 40, stored: false };

  /** `onchange` hears of each new schedule; with `areSquare` both sides of tiles go together. */
  constructor(host, { onchange, areSquare }) {
    this.#onchange = onchange;
    this.areSquare = areSquare;
    this.#controls = el("div", { class: "controls" });
    const picture = el("div", {});
    const head = el("tr", {}, ...["Stage", "How", "Tiles", "Points computed"].map((it) => el("th", { scope: "col" }, it)));
    const table = el("table", {}, el("thead", {}, head), this.#table);
    host.append(this.#controls, el("div", { class: "split" },
      el("div", { class: "scrolls" }, table, this.#sum),
      el("div", { class: "aim" }, el("label", { class: "target" }, "Tiles of ", this.#target), this.#tile, picture, this.#needs)));
    this.#picture = new PictureView(picture, (row, col) => this.#point(row, col));
  }

  /** Sets the sliders. */
  begin({ rows, cols, percent, stored, sides, percents }) {
    this.options = { rows, cols, percent, stored };
    const both = this.areSquare ? [] : [this.#slider("Columns of a tile", "cols", sides)];
    const check = el("input", { type: "checkbox", onchange: (event) => this.#set({ stored: event.target.checked }) });
    check.checked = stored;
    this.#controls.replaceChildren(this.#slider(this.areSquare ? "Sides of a tile" : "Rows of a tile", "rows", sides), ...both,
      this.#slider("Percent more points where inlined", "percent", percents), el("label", {}, check, " store all functions"));
  }

  /** A slider over some values of an option. */
  #slider(label, name, values) {
    const output = el("span", { class: "value" }, String(this.options[name]));
    const input = el("input", { type: "range", "aria-label": label, min: 0, max: values.length - 1, step: 1, "data-option": name, oninput: () => {
      output.textContent = values[input.value];
      input.setAttribute("aria-valuetext", values[input.value]);
      this.#set(name === "rows" && this.areSquare ? { rows: values[input.value], cols: values[input.value] } : { [name]: values[input.value] });
    } });
    input.value = values.indexOf(this.options[name]);
    input.setAttribute("aria-valuetext", this.options[name]);
    return el("div", { class: "slider" }, `${label}: `, output, input);
  }

  #set(options) {
    Object.assign(this.options, options);
    this.#onchange();
  }

  /** Shows the stages by the schedule that they have now. */
  show(stages) {
    this.#stages = stages;
    this.#table.replaceChildren(...stages.filter((it) => it.kind !== "plane").map(row));
    const computed = stages.reduce((sum, it) => sum + (it.cost ?? 0), 0);
    const own = stages.filter((it) => it.kind !== "plane").reduce((sum, it) => sum + points([...it.rows, ...it.cols]), 0);
    this.#sum.textContent = `${grouped(computed)} points are computed, of ${grouped(own)} that the stages have: `
      + `${Math.round((100 * computed) / Math.max(1, own))} percent.`;
    const before = this.#target.value;
    const targets = stages.filter((it) => it.kind !== "plane" && !it.inlined).map((it) => it.name);
    this.#target.replaceChildren(...targets.map((it) => el("option", {}, it)));
    this.#target.value = targets.includes(before) ? before : mostInlined(stages, targets);
    this.#aim();
  }

  /** Shows why there is no such schedule. */
  refuse(fault) {
    this.#sum.textContent = `${fault.line}. ${fault.cure}`;
  }

  /** Draws a stage's values where its tiles are shown. */
  draw(name, raster) {
    this.#rasters.set(name, raster);
    this.#aim();
  }

  #aimed() {
    return this.#stages.find((it) => it.name === this.#target.value);
  }

  #aim() {
    const stage = this.#aimed();
    if (!stage) return;
    const raster = this.#rasters.get(stage.name) ?? blank(stage);
    this.#picture.show(raster, stage.name, "", ...raster.range());
    this.#shown = "";
    this.#point(...(this.#picture.point ?? raster.point(0.5, 0.5)));
  }

  /** Shows the tile that has a point, and what it needs of all other stages. */
  #point(row, col) {
    const stage = this.#aimed();
    const { rows, cols } = this.options;
    const tile = tileAt(stage, rows, cols, row, col);
    if (this.#shown === String(tile)) return;
    this.#shown = String(tile);
    this.#picture.frame(tile);
    this.#tile.textContent = `tile of ${stage.name}: ${told(tile)}; ${grouped(pointsOf(this.#stages, stage.name, tile))} points are computed for it`;
    const found = boxes(this.#stages, stage.name, tile);
    this.#needs.replaceChildren(...this.#stages.filter((it) => found.has(it.name)).map((it) => this.#need(it, found.get(it.name))));
  }

  #need(stage, box) {
    const item = el("li", { class: stage.inlined ? "inlined" : stage.kind, "data-stage": stage.name });
    const raster = this.#rasters.get(stage.name) ?? blank(stage);
    const view = new PictureView(item);
    view.show(raster, stage.name, `${stage.name}: ${told(box)}, ${grouped(points(box))} points, ${how(stage)}`, ...raster.range());
    view.frame(box);
    return item;
  }
}

/** The stage that most functions are inlined in; of several the last, where results stand. */
function mostInlined(stages, targets) {
  const inlined = (name) => stages.filter((it) => it.inlined && it.home === name).length;
  const isFunction = (name) => stages.some((it) => it.name === name && it.kind === "func");
  const order = [...targets].sort((one, other) => inlined(one) - inlined(other) || isFunction(one) - isFunction(other));
  return order.at(-1) ?? "";
}

function row(stage) {
  const cells = [stage.inlined ? `inlined in ${stage.home}` : "stored", ...(stage.inlined ? ["", ""] : [grouped(stage.tiles), grouped(stage.cost)])];
  return el("tr", { "data-stage": stage.name }, el("th", { scope: "row" }, stage.name), ...cells.map((it) => el("td", {}, it)));
}

function how(stage) {
  if (stage.kind === "plane") return "of the picture";
  return stage.inlined ? "computed for this tile" : "read of its tiles";
}

function told([top, bottom, left, right]) {
  return `rows ${top} to ${bottom}, columns ${left} to ${right}`;
}

/** A raster without values over the domain of a stage, no larger than a thumbnail. */
function blank(stage) {
  const sides = [stage.rows, stage.cols].map(([first, last]) => last - first + 1);
  const step = Math.max(1, Math.ceil(Math.max(...sides) / 160));
  const [rows, cols] = sides.map((it) => Math.max(1, Math.floor(it / step)));
  return new Raster({ rows, cols, step, top: stage.rows[0], left: stage.cols[0], values: new Uint8Array(rows * cols) });
}
