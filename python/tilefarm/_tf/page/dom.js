/** Short ways to make elements. Nothing here takes HTML: texts stay texts. */

const SVG = "http://www.w3.org/2000/svg";

/** An element with attributes, listeners (`onclick`), and children, which are nodes or texts. */
export function el(name, attributes = {}, ...children) {
  return filled(document.createElement(name), attributes, children);
}

/** The same for SVG. */
export function svg(name, attributes = {}, ...children) {
  return filled(document.createElementNS(SVG, name), attributes, children);
}

function filled(element, attributes, children) {
  for (const [name, value] of Object.entries(attributes)) {
    if (name.startsWith("on")) element.addEventListener(name.slice(2), value);
    else if (value === true) element.setAttribute(name, "");
    else if (value !== false && value !== null && value !== undefined) element.setAttribute(name, String(value));
  }
  element.append(...children.filter((it) => it !== null && it !== undefined));
  return element;
}

/** The element of the page that has this id. */
export function byId(id) {
  return document.getElementById(id);
}

/** Numbers as people read them: 1,234. */
export function grouped(number) {
  return typeof number === "bigint" || Number.isInteger(number) ? number.toLocaleString("en") : String(number);
}
