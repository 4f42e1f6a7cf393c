/** Where a page's numbers come from: the server that `tf play` runs, or what `tf report` stored in the file. */
import { ofHalves, ofNetpbm } from "./raster.js";

/** Asks the server; each request goes to an address below the page's own, which has the token. */
export class LiveSource {
  isLive = true;

  async start() {
    return (await fetch("start")).json();
  }

  /** What a run tells, and its picture if it has one. */
  async run(job, signal) {
    const { told, data } = await post("run", job, signal);
    return { told, result: ofNetpbm(data) };
  }

  /** The values of a stage at all points, or, where `side` is not 0, at fewer. */
  async stage(job, stage, side) {
    const { told, data } = await post("stage", { ...job, stage, side });
    return told.rows ? { told, raster: ofHalves(told, data) } : { told, raster: null };
  }

  async input(key) {
    const response = await fetch(`input?key=${encodeURIComponent(key)}`);
    return response.ok ? ofNetpbm(new Uint8Array(await response.arrayBuffer())) : null;
  }

  async plan(job) {
    return (await post("plan", job)).told;
  }

  async world(asked) {
    return (await post("world", asked)).told;
  }

  async example(example) {
    return (await post("example", { example })).told;
  }

  async save(asked) {
    return (await post("save", asked)).told;
  }

  async open(name, bytes) {
    const way = { method: "POST", headers: { "Content-Type": "application/octet-stream" }, body: bytes };
    return parted(await fetch(`open?name=${encodeURIComponent(name)}`, way)).then((it) => it.told);
  }
}

async function post(name, asked, signal) {
  const way = { method: "POST", headers: { "Content-Type": "application/json" }, body: JSON.stringify(asked), signal };
  return parted(await fetch(name, way));
}

/** An answer's line of JSON, and the bytes behind it. */
async function parted(response) {
  const bytes = new Uint8Array(await response.arrayBuffer());
  const end = bytes.indexOf(10);
  const line = end < 0 ? bytes : bytes.subarray(0, end);
  return { told: JSON.parse(new TextDecoder().decode(line)), data: end < 0 ? bytes.subarray(bytes.length) : bytes.subarray(end + 1) };
}

/** Answers from what was stored when the report was made. */
export class StoredSource {
  isLive = false;
  #stored;

  constructor(stored) {
    this.#stored = stored;
  }

  async start() {
    return this.#stored.start;
  }

  async run() {
    return { told: this.#stored.run, result: ofNetpbm(await unpacked(this.#stored.result)) };
  }

  async stage(job, name) {
    const { told, data } = this.#stored.values[name];
    return { told, raster: ofHalves(told, await unpacked(data)) };
  }

  async input() {
    return ofNetpbm(await unpacked(this.#stored.input));
  }

  /** The schedule that was stored for these options. */
  async plan({ rows, percent, stored }) {
    const found = this.#stored.plans[`${rows} ${stored ? "stored" : percent}`];
    return found.fault ? found : { stages: this.#stored.run.stages.map((it) => ({ ...it, ...found[it.name] })) };
  }
}

/** Bytes of a text in base 64, which were compressed. */
async function unpacked(text) {
  const packed = Uint8Array.from(atob(text), (it) => it.charCodeAt(0));
  const stream = new Blob([packed]).stream().pipeThrough(new DecompressionStream("deflate"));
  return new Uint8Array(await new Response(stream).arrayBuffer());
}
