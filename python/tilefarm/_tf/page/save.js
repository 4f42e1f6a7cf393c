/** Saving: under a name in the folder of `tf play`, and of a report as a download. */
import { byId, el } from "./dom.js";

export class SaveDialog {
  #dialog = byId("save");
  #name = byId("save-name");
  #says = byId("save-says");
  #go = byId("save-go");
  #write = null;
  #confirmed = "";

  constructor() {
    byId("save-cancel").addEventListener("click", () => this.#dialog.close());
    this.#dialog.querySelector("form").addEventListener("submit", (event) => {
      event.preventDefault();
      this.#save();
    });
    this.#name.addEventListener("input", () => this.#say("", "Save"));
  }

  /** Asks for a name; `write(name, replace)` writes, and answers what the server said. */
  open(title, name, write) {
    if (this.#dialog.open) return;
    byId("save-title").textContent = title;
    this.#write = write;
    this.#name.value = name;
    this.#confirmed = "";
    this.#say("", "Save");
    this.#dialog.showModal();
    this.#name.select();
  }

  async #save() {
    const name = this.#name.value.trim();
    const told = await this.#write(name, this.#confirmed === name);
    if (told.saved) {
      this.#dialog.close();
      return;
    }
    this.#confirmed = told.exists ? name : "";
    if (told.exists) this.#say(`There is a file ${name} already.`, "Replace it");
    else this.#say(told.refused ?? told.fault?.line ?? "The run was ended before it was done.", "Save");
  }

  #say(words, button) {
    this.#says.textContent = words;
    this.#go.textContent = button;
  }
}

/** Lets the browser save bytes or a text as a file. */
export function download(name, parts, type) {
  const link = el("a", { href: URL.createObjectURL(new Blob(parts, { type })), download: name });
  link.click();
  setTimeout(() => URL.revokeObjectURL(link.href), 1000);
}
