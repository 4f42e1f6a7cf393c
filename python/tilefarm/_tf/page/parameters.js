/** Sliders for the parameters of a program. */
import { el } from "./dom.js";

const SAYS = { picture: "from the picture", side: "from the picture's side", hint: "", usual: "", given: "" };

export class Parameters {
  #host;
  #onchange;
  #shape = "";
  #inputs = new Map();
  /** The values that the user gave. */
  given = {};
  isReadOnly = false;

  /** `onchange` hears of each value that the user gives. */
  constructor(host, onchange) {
    this.#host = host;
    this.#onchange = onchange;
  }

  /** Shows the parameters as the program has them now. Sliders stay the same elements while names and sources stay. */
  show(parameters) {
    const shape = JSON.stringify(parameters.map(({ name, from }) => [name, from === "picture" || from === "side" ? from : "own"]));
    if (shape !== this.#shape) this.#rebuild(parameters);
    this.#shape = shape;
    for (const it of parameters) this.#update(it);
  }

  /** Keeps only the values of parameters that the program still has. */
  forget(names) {
    this.given = Object.fromEntries(Object.entries(this.given).filter(([name]) => names.includes(name)));
  }

  #rebuild(parameters) {
    this.#inputs.clear();
    this.#host.replaceChildren(...parameters.map((it) => this.#row(it)));
  }

  #row({ name, from }) {
    if (from === "picture") {
      const output = el("output", {});
      this.#inputs.set(name, [output]);
      return el("p", { class: "parameter fixed" }, el("span", { class: "label" }, name), output, el("span", { class: "says" }, SAYS[from]));
    }
    const set = (event) => this.#set(name, event.target);
    const slider = el("input", { type: "range", step: 1, "aria-label": `${name}, slider`, oninput: set, disabled: this.isReadOnly });
    const number = el("input", { type: "number", step: 1, "aria-label": name, oninput: set, disabled: this.isReadOnly });
    this.#inputs.set(name, [slider, number]);
    return el("div", { class: "parameter" }, el("span", { class: "label" }, name), slider, number, el("span", { class: "says" }, SAYS[from]));
  }

  #set(name, input) {
    const value = Number(input.value);
    if (input.value === "" || !Number.isInteger(value)) return;
    this.given[name] = value;
    for (const it of this.#inputs.get(name)) if (it !== input) it.value = value;
    this.#onchange();
  }

  #update({ name, value, least, most }) {
    for (const it of this.#inputs.get(name)) {
      if (it.type === "range") Object.assign(it, { min: least, max: most });
      if (it.tagName === "OUTPUT") it.textContent = value;
      else if (it !== document.activeElement) it.value = value;
    }
  }
}
