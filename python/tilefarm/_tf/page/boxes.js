/**
 * The part of each stage that a tile needs, by the rule of docs/SCHEDULES.md ("Boxes"). An area is [top, bottom, left, right].
 * A stage is as the server tells it: its domain, whether it is inlined, and its cases with what they read.
 */

/** What two areas have in common, or null. */
export function meet(a, b) {
  const found = [Math.max(a[0], b[0]), Math.min(a[1], b[1]), Math.max(a[2], b[2]), Math.min(a[3], b[3])];
  return found[0] <= found[1] && found[2] <= found[3] ? found : null;
}

/** The least area that holds both. */
function hull(a, b) {
  return a ? [Math.min(a[0], b[0]), Math.max(a[1], b[1]), Math.min(a[2], b[2]), Math.max(a[3], b[3])] : b;
}

/** How many points an area has. */
export function points([top, bottom, left, right]) {
  return (bottom - top + 1) * (right - left + 1);
}

export function domain(stage) {
  return [...stage.rows, ...stage.cols];
}

/** Where an index goes from the least to the greatest of a row or a column. */
function indices([factor, added, divisor, reach], least, most) {
  const at = (it) => Math.floor((factor * it + added) / divisor);
  return [at(least) - reach, at(most) + reach];
}

/** What a read demands over an area. */
function image(read, [top, bottom, left, right]) {
  return [...indices(read.rows, top, bottom), ...indices(read.cols, left, right)];
}

/** The box of each stage that a target over a region leads to: the readers first, whose boxes are known before what they read. */
export function boxes(stages, target, region) {
  const hulls = new Map();
  const found = new Map();
  for (const stage of [...stages].sort((a, b) => b.layer - a.layer)) {
    const whole = hulls.get(stage.name);
    const box = whole ? meet(whole, domain(stage)) : null;
    if (box && stage.name !== target) found.set(stage.name, box);
    const area = stage.name === target ? region : stage.inlined ? box : null;
    if (area) demand(stage, area, hulls);
  }
  return found;
}

/** Adds what a stage demands over an area to the hulls of what it reads. */
function demand(stage, area, hulls) {
  for (const part of stage.parts) {
    const shared = meet(part.area, area);
    for (const read of shared ? part.reads : []) hulls.set(read.of, hull(hulls.get(read.of), image(read, shared)));
  }
}

/** The tile of a stage that has a point, cut to the domain. */
export function tileAt(stage, height, width, row, col) {
  const [top, bottom, left, right] = domain(stage);
  const first = (at, from, side) => from + Math.floor((at - from) / side) * side;
  const [r, c] = [first(row, top, height), first(col, left, width)];
  return [r, Math.min(bottom, r + height - 1), c, Math.min(right, c + width - 1)];
}

/** The points that are computed for a tile: its own, and those of the boxes of inlined functions. */
export function pointsOf(stages, target, region) {
  const found = boxes(stages, target, region);
  const inner = stages.filter((it) => it.inlined && it.kind === "func" && found.has(it.name));
  return inner.reduce((sum, it) => sum + points(found.get(it.name)), points(region));
}

/** The points of all tiles of a stage together. */
export function costOf(stages, stage, height, width) {
  let sum = 0;
  for (let row = stage.rows[0]; row <= stage.rows[1]; row += height) {
    for (let col = stage.cols[0]; col <= stage.cols[1]; col += width) {
      sum += pointsOf(stages, stage.name, tileAt(stage, height, width, row, col));
    }
  }
  return sum;
}
