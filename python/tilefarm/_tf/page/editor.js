/** The editor: a text area over the same text in colours, with faults under their places. */
import { el } from "./dom.js";
import { painted } from "./colours.js";

export class Editor {
  #text = el("textarea", { "aria-label": "Program text", spellcheck: "false", autocapitalize: "off", autocomplete: "off", wrap: "off",
    "aria-describedby": "fault-words" });
  #paint = el("pre", { "aria-hidden": "true", class: "paint" });
  #numbers = el("pre", { "aria-hidden": "true", class: "numbers" });
  #note = el("div", { class: "fault", hidden: true });
  #words = el("div", { class: "fault-words", id: "fault-words", role: "status", "aria-live": "polite" });
  #editor = el("div", { class: "editor" }, this.#numbers, el("div", { class: "text" }, this.#paint, this.#text, this.#note));
  #marks = [];

  /** Puts an editor into an element; `onchange` hears of each change that the user makes. */
  constructor(host, onchange) {
    host.append(this.#editor, this.#words);
    this.#text.addEventListener("input", () => {
      this.clear();
      onchange();
    });
    this.#text.addEventListener("keydown", (event) => {
      if (event.key === "Escape") this.#note.hidden = true;
    });
  }

  get text() {
    return this.#text.value;
  }

  set text(text) {
    this.#text.value = text;
    this.clear();
  }

  set isReadOnly(isReadOnly) {
    this.#text.readOnly = isReadOnly;
  }

  /** Takes the fault away, and paints the text anew. */
  clear() {
    this.#marks = [];
    this.#note.hidden = true;
    this.#words.replaceChildren();
    this.#repaint();
  }

  /** Shows a fault under its first place, and under the text with all of them. */
  show(fault) {
    this.#marks = fault.places.map(({ start, end }) => ({ start, end: Math.max(end, start + 1) }));
    this.#repaint();
    this.#words.replaceChildren(...sentences(fault), ...fault.places.map((it) => this.#link(it)),
      ...fault.elsewhere.map((it) => el("pre", {}, it)));
    this.#note.hidden = fault.places.length === 0;
    if (fault.places.length) this.#place(fault);
  }

  #place(fault) {
    const before = this.text.slice(0, fault.places[0].start).split("\n");
    const isBehindEnd = before.length > 1 && fault.places[0].start >= this.text.length && before.at(-1) === "";
    const row = isBehindEnd ? before.length - 1 : before.length;
    this.#note.style.setProperty("--row-at", row);
    this.#note.style.setProperty("--scrolled", `${this.#editor.scrollLeft}px`);
    this.#note.style.setProperty("--col-at", isBehindEnd ? before.at(-2).length : before.at(-1).length);
    this.#note.replaceChildren(...sentences(fault),
      el("button", { type: "button", "aria-label": "Hide the fault", onclick: () => { this.#note.hidden = true; } }, "×"));
  }

  /** A button that leads to a place: its line, its column, and the line's text. */
  #link({ start, end }) {
    const before = this.text.slice(0, start).split("\n");
    const line = this.text.split("\n")[before.length - 1].trim();
    return el("button", { type: "button", class: "place", onclick: () => this.#select(start, end) },
      `${before.length}:${before.at(-1).length + 1}  ${line}`);
  }

  #select(start, end) {
    this.#text.focus();
    this.#text.setSelectionRange(start, end);
    this.#editor.querySelector(".marked")?.scrollIntoView({ block: "nearest", inline: "center" });
  }

  #repaint() {
    this.#paint.replaceChildren(painted(`${this.text}\n`, this.#marks));
    const count = this.text.split("\n").length;
    this.#numbers.textContent = Array.from({ length: count }, (_, at) => at + 1).join("\n");
  }
}

function sentences(fault) {
  return [el("code", {}, fault.line), ...(fault.cure ? [el("p", {}, fault.cure)] : [])];
}
