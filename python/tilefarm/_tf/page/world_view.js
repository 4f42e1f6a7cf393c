/** A world, step by step: what each node holds, and the drawing of all events with the step that is shown. */
import { el } from "./dom.js";

const KEYS = { ArrowLeft: -1, ArrowRight: 1, Home: -Infinity, End: Infinity };

export class WorldView {
  #world = null;
  #at = 0;
  #canvases = [];
  #slider = el("input", { type: "range", min: 0, max: 0, value: 0, "aria-label": "Step", class: "world-slider",
    oninput: () => this.go(Number(this.#slider.value)) });
  #said = el("p", { class: "world-said", role: "status" });
  #nodes = el("div", { class: "world-nodes" });
  #drawing = el("div", { class: "world-drawing", tabindex: 0, role: "img", "aria-label": "All events, time downward" });

  constructor(host) {
    const button = (words, name, by) => el("button", { type: "button", "aria-label": name, onclick: () => this.go(this.#at + by) }, words);
    const steps = el("div", { class: "world-steps" }, button("◀", "One step back", -1), this.#slider, button("▶", "One step on", 1));
    host.append(el("div", { class: "world-split" },
      el("div", { class: "world-now" }, steps, this.#said, this.#nodes), this.#drawing));
  }

  /** Shows a world from its end, or from the step that was shown where `isKept`. */
  show(world, isKept = false) {
    this.#world = world;
    this.#slider.max = world.steps.length - 1;
    const drawing = new DOMParser().parseFromString(world.drawing, "image/svg+xml").documentElement;
    this.#drawing.replaceChildren(document.adoptNode(drawing));
    for (const it of this.#drawing.querySelectorAll(".step")) it.addEventListener("click", () => this.go(Number(it.dataset.step)));
    const shades = world.stages.map((it) => Uint8Array.from(atob(it.shades), (letter) => letter.charCodeAt(0)));
    this.#canvases = Array.from({ length: world.nodes }, () => world.stages.map((it, at) => new StageCanvas(it, shades[at])));
    this.#nodes.replaceChildren(...this.#canvases.map((canvases, node) => el("section", { class: "world-node", "data-node": node },
      el("h3", {}, `node ${node}`), el("div", { class: "world-stages" }, ...canvases.map((it) => it.element)),
      el("p", { class: "says" }))));
    this.go(isKept ? this.#at : 0);
  }

  /** Shows a step: the nearest one that there is. */
  go(at) {
    this.#at = Math.min(Math.max(at, 0), this.#world.steps.length - 1);
    const step = this.#world.steps[this.#at];
    this.#slider.value = this.#at;
    this.#slider.setAttribute("aria-valuetext", step.said);
    this.#said.textContent = `${this.#at} of ${this.#world.steps.length - 1}${step.line ? `, line ${step.line}` : ""}: ${step.said}`;
    this.#said.classList.toggle("world-refused", step.refused);
    step.states.forEach((state, node) => this.#showNode(node, state));
    for (const it of this.#drawing.querySelectorAll(".step")) {
      it.classList.toggle("later", Number(it.dataset.step) > this.#at);
      it.classList.toggle("shown", Number(it.dataset.step) === this.#at);
    }
    this.#follow();
  }

  #showNode(node, state) {
    this.#canvases[node].forEach((it, at) => it.show(state.held[at]));
    const count = state.held.reduce((sum, it) => sum + it.length, 0);
    const said = state.retired ? "knows that the job is retired" : `holds ${count} ${count === 1 ? "tile" : "tiles"}`;
    this.#nodes.children[node].querySelector(".says").textContent = said;
  }

  /** Scrolls the drawing so that its step is seen. */
  #follow() {
    const shown = this.#drawing.querySelector(".step.shown");
    const box = this.#drawing.getBoundingClientRect();
    if (!shown || !box.height) return;
    const { top, bottom } = shown.getBoundingClientRect();
    if (top < box.top || bottom > box.bottom) this.#drawing.scrollTop += top - box.top - box.height / 2;
  }

  /** The keys of steps, where no field takes them. */
  pressed(event) {
    if (!(event.key in KEYS) || event.ctrlKey || event.altKey || event.metaKey) return;
    if (event.target.closest?.("input, select, textarea")) return;
    event.preventDefault();
    this.go(this.#at + KEYS[event.key]);
  }
}

/** The tiles of a stage that a node holds, each with its values, and nothing where it holds none. */
class StageCanvas {
  #stage;
  #shades;
  #canvas;
  element;

  constructor(stage, shades) {
    this.#stage = stage;
    this.#shades = shades;
    this.#canvas = el("canvas", { width: stage.cols, height: stage.rows, "data-stage": stage.name, role: "img" });
    this.element = el("figure", {}, el("figcaption", {}, stage.name), this.#canvas);
  }

  show(held) {
    const { name, rows, cols, tiles } = this.#stage;
    const image = new ImageData(cols, rows);
    for (const number of held) {
      const [top, left, height, width] = tiles[number];
      for (let row = top; row < top + height; row += 1) {
        for (let col = left; col < left + width; col += 1) {
          const at = row * cols + col;
          image.data.fill(this.#shades[at], 4 * at, 4 * at + 3);
          image.data[4 * at + 3] = 255;
        }
      }
    }
    this.#canvas.getContext("2d").putImageData(image, 0, 0);
    this.#canvas.setAttribute("aria-label", `${name}: ${held.length} of ${tiles.length} tiles`);
  }
}
