/** The stages of the last run: their values are asked for one by one, and shown as they come. */
import { byId } from "./dom.js";

const THUMBNAIL = 160;

export class Stages {
  #source;
  #graph;
  #view;
  #schedule;
  #job = null;
  #stages = [];
  #loaded = "";
  #turn = 0;
  #chain = Promise.resolve();

  constructor(source, graph, view, schedule) {
    this.#source = source;
    this.#graph = graph;
    this.#view = view;
    this.#schedule = schedule;
  }

  /** Asks for nothing more until the next run is shown. */
  pause() {
    this.#turn += 1;
    byId("stages").removeAttribute("aria-busy");
  }

  /** Shows the stages of a run, and asks for their values unless they are those that are there. */
  async show(job, told) {
    const mine = (this.#turn += 1);
    this.#job = job;
    this.#showStages(told.stages);
    const key = JSON.stringify([job.text, told.parameters, told.picture.key]);
    if (key === this.#loaded) return;
    this.#loaded = "";
    byId("stages").setAttribute("aria-busy", "true");
    if (this.#view.name) await this.open(this.#view.name);
    for (const stage of told.stages.filter((it) => it.kind !== "accum")) {
      if (mine !== this.#turn) return;
      await this.#load(stage, mine);
    }
    if (mine !== this.#turn) return;
    this.#loaded = key;
    byId("stages").removeAttribute("aria-busy");
  }

  /** Shows the stages by another schedule. */
  async plan(job) {
    if (!this.#job) return;
    const told = await this.next(() => this.#source.plan({ ...this.#job, ...schedule(job) }));
    if (told.stages) this.#showStages(told.stages);
    else if (told.fault) this.#schedule.refuse(told.fault);
  }

  /** Shows a stage at full size. */
  async open(name) {
    const mine = this.#turn;
    const stage = this.#stages.find((it) => it.name === name);
    this.#graph.open(name);
    if (!stage) {
      this.#view.hide();
      return;
    }
    if (stage.kind === "accum") {
      byId("totals").scrollIntoView({ behavior: "smooth" });
      return;
    }
    const { told, raster } = await this.next(() => this.#source.stage(this.#job, name, 0));
    if (mine !== this.#turn) return;
    if (raster) this.#view.show(stage, raster);
    else if (told) this.#view.refuse(stage, reason(told));
  }

  #showStages(stages) {
    this.#stages = stages;
    this.#graph.show(stages);
    this.#schedule.show(stages);
  }

  async #load(stage, mine) {
    const { raster } = await this.next(() => this.#source.stage(this.#job, stage.name, THUMBNAIL));
    if (!raster || mine !== this.#turn) return;
    this.#graph.draw(stage.name, raster);
    this.#schedule.draw(stage.name, raster);
  }

  /** One request after the other: the server ends what runs when the next comes. */
  next(ask) {
    const asked = this.#chain.then(ask, ask);
    this.#chain = asked.catch(() => {});
    return asked.catch(() => ({}));
  }
}

/** Why there are no values. */
function reason(told) {
  return told.fault?.line ?? told.refused ?? (told.stopped === "slow" ? "it takes too long" : "the run was ended by another one");
}

function schedule({ rows, cols, percent, stored }) {
  return { rows, cols, percent, stored };
}
