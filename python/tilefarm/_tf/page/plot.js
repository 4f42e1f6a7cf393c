/** Bars over numbered bins, with the bin under the pointer told in words. */
import { el, grouped, svg } from "./dom.js";

const WIDTH = 640;
const HEIGHT = 160;

/** A plot of numbers; one that is null is left empty. `label(at)` says which bin it is, `words` what each number is. */
export function plot({ name, bins, label, words = bins }) {
  const readout = el("output", { class: "readout", "aria-live": "polite" }, " ");
  const known = bins.filter((it) => it !== null);
  const high = Math.max(0, ...known);
  const low = Math.min(0, ...known);
  const scale = HEIGHT / Math.max(high - low, Number.MIN_VALUE);
  const hover = svg("rect", { class: "hover", y: 0, height: HEIGHT, width: WIDTH / bins.length, visibility: "hidden" });
  const bars = svg("path", { class: "bars", d: outline(bins, high, scale) });
  const chart = svg("svg", { viewBox: `0 0 ${WIDTH} ${HEIGHT}`, preserveAspectRatio: "none", role: "img", tabindex: 0,
    "aria-label": `${name}: ${bins.length} bins, at most ${grouped(high)}` }, hover, bars);
  const show = (at) => {
    hover.setAttribute("x", (at * WIDTH) / bins.length);
    hover.setAttribute("visibility", "visible");
    readout.textContent = `${label(at)}: ${words[at] ?? "none"}`;
  };
  listen(chart, bins.length, show);
  const axis = el("p", { class: "axis", "aria-hidden": "true" }, el("span", {}, label(0)), el("span", {}, `up to ${grouped(high)}`),
    el("span", {}, label(bins.length - 1)));
  return el("figure", { class: "plot" }, el("figcaption", {}, name), chart, axis, readout);
}

/** The outline of all bars, from the line of 0. */
function outline(bins, high, scale) {
  const width = WIDTH / bins.length;
  const zero = high * scale;
  const bar = (value, at) => (value ? `M${at * width},${zero}V${zero - value * scale}h${width * 0.92}V${zero}z` : "");
  return bins.map(bar).join("");
}

function listen(chart, count, show) {
  let now = 0;
  const to = (at) => {
    now = Math.min(count - 1, Math.max(0, at));
    show(now);
  };
  chart.addEventListener("pointermove", (event) => {
    const box = chart.getBoundingClientRect();
    to(Math.floor(((event.clientX - box.left) / box.width) * count));
  });
  chart.addEventListener("keydown", (event) => {
    const step = { ArrowLeft: -1, ArrowRight: 1 }[event.key];
    if (!step) return;
    event.preventDefault();
    to(now + step);
  });
}
