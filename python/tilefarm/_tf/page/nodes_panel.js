/** Nodes that share the tiles: sliders by which a script is made, the script, which can be changed, and the world that it leads to. */
import { el } from "./dom.js";
import { WorldView } from "./world_view.js";

const TYPING_PAUSE = 400;
const NODE_SLIDERS = [
  { name: "nodes", label: "Nodes", least: 1, most: 8, usual: 2 },
  { name: "lose", label: "Of how many messages one is lost", least: 0, most: 9, usual: 0 },
  { name: "repeat", label: "Of how many messages one arrives twice", least: 0, most: 9, usual: 0 },
  { name: "restart", label: "Turns of a node until it restarts", least: 0, most: 9, usual: 0 },
];

export class NodesPanel {
  #ask;
  #save;
  #host;
  #wanted = Object.fromEntries(NODE_SLIDERS.map((it) => [it.name, it.usual]));
  #sliders = new Map();
  #script = el("textarea", { id: "script", "aria-label": "Script", spellcheck: "false", rows: 12, oninput: () => this.#edited() });
  #says = el("p", { class: "says", role: "status" });
  #fault = el("pre", { class: "world-fault", hidden: true });
  #body = el("div", { hidden: true });
  #open = el("button", { type: "button", id: "share", onclick: () => this.#begin() }, "Share the tiles among nodes");
  #view;
  #timer = 0;
  #asked = 0;
  /** Whether the script is the user's own, and is not saved. */
  isChanged = false;
  #isOwn = false;

  /** `ask(wanted)` answers the world of a script, and `save(text, done)` lets the user save one. */
  constructor(host, { ask, save }) {
    this.#host = host;
    this.#ask = ask;
    this.#save = save;
    const saving = el("button", { type: "button", id: "save-script", onclick: () => this.#saveScript() }, "Save script");
    const world = el("div", { class: "world-panel" });
    this.#body.append(el("div", { class: "controls" }, ...NODE_SLIDERS.map((it) => this.#slider(it))),
      el("details", { class: "world-script" }, el("summary", {}, "Script"), this.#script, saving), this.#says, this.#fault, world);
    host.append(this.#open, this.#body);
    this.#view = new WorldView(world);
    world.addEventListener("keydown", (event) => this.#view.pressed(event));
  }

  #slider({ name, label, least, most, usual }) {
    const output = el("span", { class: "value" }, orNone(usual));
    const input = el("input", { type: "range", min: least, max: most, step: 1, value: usual, "aria-label": label, "data-nodes": name,
      oninput: () => this.#slid(name, input) });
    this.#sliders.set(name, { input, output });
    return el("div", { class: "slider" }, `${label}: `, output, input);
  }

  #slid(name, input) {
    if (this.isChanged && !window.confirm("Your script is not saved. Make another one?")) {
      input.value = this.#wanted[name];
      return;
    }
    this.isChanged = false;
    this.#isOwn = false;
    this.#wanted[name] = Number(input.value);
    this.#sliders.get(name).output.textContent = orNone(input.value);
    input.setAttribute("aria-valuetext", orNone(input.value));
    this.#soon();
  }

  #edited() {
    this.isChanged = true;
    this.#isOwn = true;
    this.#soon();
  }

  #soon() {
    clearTimeout(this.#timer);
    this.#timer = setTimeout(() => this.run(), TYPING_PAUSE);
  }

  #begin() {
    this.#open.hidden = true;
    this.#body.hidden = false;
    this.run();
  }

  /** Asks for the world again, once it was asked for. */
  async run() {
    if (this.#body.hidden) return;
    clearTimeout(this.#timer);
    const mine = (this.#asked += 1);
    this.#host.setAttribute("aria-busy", "true");
    const told = await this.#ask({ ...this.#wanted, script: this.#isOwn ? this.#script.value : null });
    if (mine !== this.#asked) return;
    this.#host.removeAttribute("aria-busy");
    this.#show(told);
  }

  #show(told) {
    const { fault } = told;
    this.#fault.hidden = !fault;
    this.#fault.textContent = fault ? [fault.line, ...fault.elsewhere, fault.cure].filter(Boolean).join("\n") : "";
    if (!told.world) {
      this.#says.textContent = fault ? "" : told.refused ?? (told.stopped === "slow" ? "it takes too long" : "ended by the next run");
      return;
    }
    if (!this.#isOwn) this.#script.value = told.script;
    const refused = told.world.steps.filter((it) => it.refused).length;
    const reduced = told.factor > 1 ? `, over a copy of the picture reduced by ${told.factor}` : "";
    this.#says.textContent = `${told.world.steps.length - 1} events, of which ${refused} are refused${reduced}`;
    this.#view.show(told.world, true);
  }

  #saveScript() {
    const text = this.#script.value;
    this.#save(text, () => {
      if (this.#script.value === text) this.isChanged = false;
    });
  }
}

/** A number of a slider. */
function orNone(value) {
  return Number(value) ? String(value) : "none";
}
