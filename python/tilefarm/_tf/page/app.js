/** The page: what the user changes is run again, and what a run tells is shown. */
import { byId, el, grouped } from "./dom.js";
import { Editor } from "./editor.js";
import { bytesOf, decoded } from "./files.js";
import { Graph } from "./graph.js";
import { NodesPanel } from "./nodes_panel.js";
import { Parameters } from "./parameters.js";
import { PictureView } from "./picture_view.js";
import { SaveDialog, download } from "./save.js";
import { ScheduleView } from "./schedule_view.js";
import { StageView } from "./stage_view.js";
import { Stages } from "./stages.js";
import { showTotals } from "./totals_view.js";

const PAUSE = 500;
const MOST_HALVINGS = 4;
const SLOW = "ended: it took too much of the processor. A change runs it again, or half of the size.";
/** What is said of planes that were made. */
const MADE = { grey: ", made grey", colours: ", made three equal planes" };

export class App {
  #source;
  #editor = new Editor(byId("editor"), () => this.changed());
  #parameters = new Parameters(byId("parameters"), () => this.changed(100));
  #point = (row, col) => [this.#input, this.#result, this.#stage].forEach((it) => it.showPoint(row, col));
  #input = new PictureView(byId("input"), this.#point);
  #result = new PictureView(byId("result"), this.#point);
  #stage = new StageView(byId("stage"), this.#point);
  #graph = new Graph(byId("graph"), (name) => this.#stages.open(name));
  #schedule;
  #stages;
  #save = new SaveDialog();
  #nodes = new NodesPanel(byId("nodes-body"), {
    ask: (wanted) => this.#stages.next(() => this.#source.world({ ...this.#job(), ...wanted })),
    save: (text, done) => this.#saveScript(text, done),
  });
  #timer = 0;
  #running = null;
  #key = "";
  #isWhole = false;
  #halvings = 0;
  #name = "program.pipe";
  #hasPicture = false;
  #kept = "";

  constructor(source) {
    this.#source = source;
    this.#schedule = new ScheduleView(byId("schedule-body"), { onchange: () => this.#planned(), areSquare: !source.isLive });
    this.#stages = new Stages(source, this.#graph, this.#stage, this.#schedule);
    document.body.classList.toggle("stored", !source.isLive);
    this.#listen();
  }

  async begin() {
    const start = await this.#source.start();
    this.#load(start.text);
    this.#editor.isReadOnly = !this.#source.isLive;
    this.#parameters.isReadOnly = !this.#source.isLive;
    this.#parameters.given = { ...start.values };
    this.#name = start.name || this.#name;
    this.#schedule.begin(start);
    byId("examples").replaceChildren(el("option", { value: "" }, "…"), ...start.examples.map((it) => el("option", {}, it)));
    if (start.picture.key) await this.#showInput(start.picture);
    await this.run();
  }

  #listen() {
    byId("examples").addEventListener("change", (event) => this.#example(event.target));
    window.addEventListener("beforeunload", (event) => {
      if (this.#isChanged() || this.#nodes.isChanged) event.preventDefault();
    });
    byId("open-picture").addEventListener("change", (event) => event.target.files[0] && this.#open(event.target.files[0]));
    byId("run-again").addEventListener("click", () => this.run());
    byId("half-size").addEventListener("click", () => this.#size(this.#halvings + 1));
    byId("compute-whole").addEventListener("click", () => this.#size(0, true));
    byId("save-program").addEventListener("click", () => this.#saveProgram());
    byId("save-result").addEventListener("click", () => this.#saveResult());
    document.addEventListener("keydown", (event) => this.#pressed(event));
    document.addEventListener("dragover", (event) => event.preventDefault());
    document.addEventListener("drop", (event) => {
      event.preventDefault();
      if (this.#source.isLive && event.dataTransfer.files[0]) this.#open(event.dataTransfer.files[0]);
    });
  }

  #pressed(event) {
    if (!(event.ctrlKey || event.metaKey)) return;
    if (event.key === "Enter") this.run();
    if (event.key === "s") {
      event.preventDefault();
      this.#saveProgram();
    }
  }

  /** What is asked for now. */
  #job() {
    const { text } = this.#editor;
    return { text, values: this.#parameters.given, ...this.#schedule.options, whole: this.#isWhole, halvings: this.#halvings };
  }

  /** Runs over a copy of the picture whose sides are halved so many times, or over the whole picture. */
  async #size(halvings, isWhole = false) {
    this.#halvings = halvings;
    this.#isWhole = isWhole;
    await this.run();
  }

  /** Runs again after a pause without another change. */
  changed(pause = PAUSE) {
    clearTimeout(this.#timer);
    this.#timer = setTimeout(() => this.run(), pause);
  }

  /** Runs the program, in the place of what runs. */
  async run() {
    clearTimeout(this.#timer);
    this.#running?.abort();
    const mine = new AbortController();
    this.#running = mine;
    this.#stages.pause();
    byId("half-size").hidden = true;
    this.#say("running …");
    document.body.setAttribute("aria-busy", "true");
    try {
      const job = this.#job();
      const { told, result } = await this.#source.run(job, mine.signal);
      if (this.#running === mine) await this.#show(job, told, result);
    } catch (error) {
      if (this.#running === mine) this.#say(`No answer: is tf play still running? (${error.message})`);
    } finally {
      if (this.#running === mine) document.body.removeAttribute("aria-busy");
    }
  }

  async #show(job, told, result) {
    if (told.stopped || told.refused) {
      byId("half-size").hidden = told.stopped !== "slow" || this.#halvings === MOST_HALVINGS;
      this.#say(told.stopped === "slow" ? SLOW : told.refused ?? "ended by the next run");
      return;
    }
    if (told.parameters) this.#parameters.show(told.parameters);
    byId("notes").replaceChildren(...(told.notes ?? []).map((it) => el("li", {}, it)));
    if (told.picture) await this.#showInput(told.picture);
    byId("result").classList.toggle("stale", Boolean(told.fault));
    if (told.fault) {
      this.#editor.show(told.fault);
      this.#say(told.fault.line);
      return;
    }
    this.#editor.clear();
    this.#showResult(told, result);
    this.#stages.show(job, told);
    this.#nodes.run();
  }

  async #showInput(picture) {
    byId("compute-whole").hidden = picture.factor === 1;
    if (picture.key === this.#key) return;
    const raster = await this.#source.input(picture.key);
    if (!raster) return;
    this.#key = picture.key;
    const reduced = picture.factor > 1 && picture.whole ? `, reduced from ${picture.whole.join(" × ")}` : "";
    const caption = `${picture.name.replace(/^.*\//, "")}: ${raster.rows} × ${raster.cols}${MADE[picture.made] ?? ""}${reduced}`;
    this.#input.show(raster, "picture", caption, 0, raster.most);
  }

  #showResult(told, result) {
    const names = told.output?.names ?? [];
    const first = told.stages.find((it) => it.name === names[0]);
    byId("result").hidden = !result;
    if (result) {
      const placed = first ? result.placed(first.rows[0], first.cols[0]) : result;
      this.#result.show(placed, "result", `${names.join(", ")}: ${result.rows} × ${result.cols}, samples to ${result.most}`, 0, result.most);
    }
    this.#hasPicture = Boolean(result);
    showTotals(byId("totals"), byId("totals-body"), told.totals);
    const reduced = told.picture.factor > 1 ? ` · over a copy reduced by ${told.picture.factor}` : "";
    this.#say(`ran in ${grouped(Math.round(1000 * told.seconds))} ms${reduced}`);
  }

  /** A schedule changes no value: stages are told anew at once, and the run follows. */
  async #planned() {
    await this.#stages.plan(this.#job());
    if (this.#source.isLive) this.changed();
  }

  /** Puts a program into the editor, as one that is kept elsewhere. */
  #load(text) {
    this.#editor.text = text;
    this.#kept = text;
  }

  #isChanged() {
    return this.#source.isLive && this.#editor.text !== this.#kept;
  }

  async #example(select) {
    const name = select.value;
    select.value = "";
    if (!name || (this.#isChanged() && !window.confirm("Your program is not saved. Leave it?"))) return;
    const told = await this.#source.example(name);
    this.#load(told.text);
    this.#name = told.name;
    this.#parameters.given = { ...told.values };
    await this.#showInput(told.picture);
    await this.#size(0);
  }

  async #open(file) {
    let told = await this.#source.open(file.name, await bytesOf(file));
    // what tf does not read, the browser may
    if (told.refused) told = await this.#decoded(file, told);
    if (told.refused) {
      this.#say(told.refused);
      return;
    }
    await this.#showInput(told.picture);
    await this.#size(0);
  }

  async #decoded(file, told) {
    try {
      return await this.#source.open(file.name, await decoded(file));
    } catch {
      return told;
    }
  }

  #saveProgram() {
    if (!this.#source.isLive) {
      download(this.#name, [this.#editor.text], "text/plain");
      return;
    }
    this.#save.open("Save the program", this.#name, async (file, replace) => {
      const text = this.#editor.text;
      const told = await this.#source.save({ file, replace, text });
      if (told.saved) {
        this.#name = told.saved;
        this.#kept = text;
        this.#say(`saved ${told.saved}`);
      }
      return told;
    });
  }

  #saveResult() {
    const base = this.#name.replace(/^.*\//, "").replace(/\.pipe$/, "");
    if (!this.#source.isLive) {
      byId("result").querySelector("canvas").toBlob((blob) => download(`${base}.png`, [blob], "image/png"));
      return;
    }
    this.#save.open("Save the result over the whole picture", `${base}.${this.#hasPicture ? "png" : "txt"}`, async (file, replace) => {
      const told = await this.#source.save({ ...this.#job(), file, replace, result: true });
      if (told.saved) this.#say(`saved ${told.saved}`);
      return told;
    });
  }

  #saveScript(text, done) {
    const base = this.#name.replace(/^.*\//, "").replace(/\.pipe$/, "");
    this.#save.open("Save the script", `${base}.script`, async (file, replace) => {
      const told = await this.#source.save({ file, replace, text });
      if (told.saved) {
        done();
        this.#say(`saved ${told.saved}`);
      }
      return told;
    });
  }

  #say(words) {
    byId("status").textContent = words;
  }
}
