/** The stages as a graph of thumbnails: what is read stands left of what reads it, or in a row above. */
import { el, grouped, svg } from "./dom.js";

/** From so many stages on they are drawn smaller. */
const MANY = 12;

export class Graph {
  #host;
  #onchoose;
  #rows = el("div", { class: "layers" });
  #lines = svg("svg", { class: "reads", "aria-hidden": "true" });
  #nodes = new Map();
  #stages = [];
  #layers = [];
  #columns = [];

  /** `onchoose` hears of the stage that the user opens. */
  constructor(host, onchoose) {
    this.#host = el("div", { class: "graph" }, this.#lines, this.#rows);
    this.#onchoose = onchoose;
    host.append(this.#host);
    new ResizeObserver(() => this.#connect()).observe(this.#host);
  }

  /** Shows the stages; thumbnails of stages with the same name stay. */
  show(stages) {
    const before = this.#nodes;
    this.#stages = stages;
    this.#nodes = new Map(stages.map((it) => [it.name, this.#node(it, before.get(it.name))]));
    this.#layers = layers(stages);
    const button = (it) => this.#nodes.get(it.name).button;
    this.#columns = this.#layers.map((layer) => el("div", { class: "layer" }, ...layer.map(button)));
    this.#rows.classList.toggle("many", stages.length >= MANY);
    this.#rows.replaceChildren(...this.#columns);
    this.#connect();
  }

  /** Draws a stage's values on its thumbnail. */
  draw(name, raster) {
    const node = this.#nodes.get(name);
    if (node) raster.draw(node.canvas, ...raster.range());
  }

  /** Marks the stage that is open. */
  open(name) {
    for (const [key, { button }] of this.#nodes) button.setAttribute("aria-pressed", String(key === name));
  }

  #node(stage, before) {
    const canvas = before?.canvas ?? el("canvas", { width: 1, height: 1, "aria-hidden": "true" });
    const isPressed = before?.button.getAttribute("aria-pressed") ?? "false";
    const button = el("button", { type: "button", class: `node ${stage.kind}${stage.inlined ? " inlined" : ""}`, "aria-pressed": isPressed,
      "data-stage": stage.name, onclick: () => this.#onchoose(stage.name) },
      stage.kind === "accum" ? el("span", { class: "sigma", "aria-hidden": "true" }, "Σ") : canvas,
      el("strong", {}, stage.name), el("span", {}, words(stage)));
    return { button, canvas };
  }

  /** Draws a line for each read: straight to the next layer, over the layers between in the same row, and down to another row. */
  #connect() {
    const box = this.#host.getBoundingClientRect();
    this.#lines.setAttribute("viewBox", `0 0 ${box.width} ${box.height}`);
    const places = new Map([...this.#nodes].map(([name, { button }]) => [name, within(button.getBoundingClientRect(), box)]));
    const depth = new Map(this.#layers.flatMap((layer, at) => layer.map((it) => [it.name, at])));
    const path = (read, name) => {
      const [from, to, first, last] = [places.get(read), places.get(name), depth.get(read), depth.get(name)];
      if (this.#columns[first].offsetTop !== this.#columns[last].offsetTop) return down(from, to);
      const between = this.#layers.slice(first + 1, last).flat().map((it) => places.get(it.name));
      return between.length ? over(from, to, between) : across(from, to);
    };
    const reads = this.#stages.flatMap((stage) => stage.reads.filter((it) => places.has(it)).map((it) => path(it, stage.name)));
    this.#lines.replaceChildren(...reads.map((d) => svg("path", { d })));
  }
}

/** The stages by layers. A function that reads nothing stands right before the first that reads it. */
function layers(stages) {
  const found = [];
  for (const stage of stages) {
    const readers = stages.filter((it) => it.reads.includes(stage.name)).map((it) => it.layer);
    const isFree = stage.kind === "func" && stage.reads.length === 0 && readers.length > 0;
    const at = isFree ? Math.min(...readers) - 1 : stage.layer;
    found[at] = [...(found[at] ?? []), stage];
  }
  return found.filter(Boolean);
}

/** The sides of a box as they lie in another. */
function within(inner, outer) {
  const { left, top } = outer;
  return { left: inner.left - left, right: inner.right - left, top: inner.top - top, bottom: inner.bottom - top };
}

/** A line to a stage in a row below. */
function down(from, to) {
  const [x, toX] = [from, to].map((it) => (it.left + it.right) / 2);
  const bend = Math.max((to.top - from.bottom) / 2, 12);
  return `M${x},${from.bottom}C${x},${from.bottom + bend} ${toX},${to.top - bend} ${toX},${to.top}`;
}

/** A line to a stage of the next layer. */
function across(from, to) {
  const [y, toY] = [from, to].map((it) => (it.top + it.bottom) / 2);
  const bend = (to.left - from.right) / 2;
  return `M${from.right},${y}C${from.right + bend},${y} ${to.left - bend},${toY} ${to.left},${toY}`;
}

/** A line over what stands between two stages. */
function over(from, to, between) {
  const [x, toX] = [from, to].map((it) => (it.left + it.right) / 2);
  const far = Math.min(...[from, to, ...between].map((it) => it.top)) - 12;
  return `M${x},${from.top}C${x},${far} ${toX},${far} ${toX},${to.top}`;
}

/** What is said of a stage below its name. */
export function words(stage) {
  const [rows, cols] = [stage.rows, stage.cols].map(([first, last]) => last - first + 1);
  if (stage.kind === "plane") return `plane, ${rows} × ${cols}`;
  if (stage.inlined) return `inlined in ${stage.home}`;
  return `${stage.kind === "accum" ? "accumulator" : "stored"}, ${grouped(stage.cost)} points`;
}
