/** The colours of a program's text, as editors/pipe.tmLanguage.json has them. */
import { el } from "./dom.js";

const KINDS = [
  ["comment", /#[^\n]*/y],
  ["bad", /[^\x00-\x7F]|!=|<(?![<=])|>(?![>=])|[0-9]+[A-Za-z_][A-Za-z0-9_]*|[A-Za-z][A-Za-z0-9_]{32,}/y],
  ["declares", /\b(?:param|image|func|accum|output|table)\b/y],
  ["control", /\b(?:case|else|in|over|at|and|sum)\b/y],
  ["built-in", /\b(?:abs|min|max|clamp|select|stencil)\b/y],
  ["number", /[0-9]+/y],
  ["operator", /<<|>>|<=|>=|==|\.\.|[-+*/%]/y],
  ["call", /[A-Za-z][A-Za-z0-9_]*(?=\s*\()/y],
  ["name", /[A-Za-z][A-Za-z0-9_]*/y],
  ["rest", /[^A-Za-z0-9#]/y],
];

/** The parts of a text, each with its kind. */
export function parts(text) {
  const found = [];
  for (let at = 0; at < text.length; ) {
    const [kind, word] = partAt(text, at);
    found.push({ kind, start: at, end: at + word.length });
    at += word.length;
  }
  return found;
}

function partAt(text, at) {
  for (const [kind, pattern] of KINDS) {
    pattern.lastIndex = at;
    const word = pattern.exec(text);
    if (word) return [kind, word[0]];
  }
  return ["rest", text[at]];
}

/** The text in colours, with the marked places underlined. A place is `{start, end}`. */
export function painted(text, marks) {
  const found = document.createDocumentFragment();
  const edges = marks.flatMap((it) => [it.start, it.end]);
  for (const part of parts(text)) {
    const cuts = [part.start, ...edges.filter((it) => it > part.start && it < part.end).sort((a, b) => a - b), part.end];
    for (let at = 0; at + 1 < cuts.length; at += 1) {
      const isMarked = marks.some((it) => it.start <= cuts[at] && cuts[at + 1] <= it.end);
      const word = text.slice(cuts[at], cuts[at + 1]);
      found.append(part.kind === "rest" && !isMarked ? word : el("span", { class: isMarked ? `${part.kind} marked` : part.kind }, word));
    }
  }
  return found;
}
