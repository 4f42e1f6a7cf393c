/** What the accumulators hold, as plots. */
import { plot } from "./plot.js";

/** What a bin of a least or a greatest number holds where no point has it. */
const EMPTY = new Set(["9223372036854775807", "-9223372036854775808"]);

/** Shows all accumulators in an element; the section is hidden where there are none. */
export function showTotals(section, host, totals) {
  section.hidden = totals.length === 0;
  host.replaceChildren(...totals.map(figure));
}

function figure({ name, low, bins }) {
  const words = bins.map((it) => (EMPTY.has(it) ? null : BigInt(it).toLocaleString("en")));
  const numbers = bins.map((it) => (EMPTY.has(it) ? null : Number(it)));
  return plot({ name: `${name} ${low}..${low + bins.length - 1}`, bins: numbers, words, label: (at) => `bin ${low + at}` });
}
