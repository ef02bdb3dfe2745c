/* Elements are built here, and text is only ever put in as text. */

const SVG = "http://www.w3.org/2000/svg";

function fill(element, attributes, children) {
  for (const [name, value] of Object.entries(attributes)) {
    if (value !== null && value !== undefined && value !== false) {
      element.setAttribute(name, value === true ? "" : String(value));
    }
  }
  for (const child of children.flat()) {
    if (child !== null && child !== undefined) element.append(child);
  }
  return element;
}

function element(tag, attributes = {}, ...children) {
  return fill(document.createElement(tag), attributes, children);
}

function drawn(tag, attributes = {}, ...children) {
  return fill(document.createElementNS(SVG, tag), attributes, children);
}

function byId(id) {
  return document.getElementById(id);
}

/* The number of a ring in its colour. */
function ringBadge(ring, label) {
  return element("span", { class: `ring r${ring}`, title: label || `ring ${ring}` }, String(ring));
}

/* A text in which all characters show, also those that control a terminal or the direction of
   writing. */
function shown(text) {
  return text.replace(/[\x00-\x1f\x7f-\x9f]/g,
    (character) => "\\" + octal(character.charCodeAt(0), 3))
    .replace(/[\u061c\u200b-\u200f\u2028-\u202e\u2060-\u2069\ufeff]/g,
      (character) => "\\u" + character.charCodeAt(0).toString(16).padStart(4, "0"));
}

/* Characters that would not show, as the console line of a trace writes them. */
function visible(text) {
  return text.replace(/[\x00-\x09\x0b-\x1f\x7f-\u00ff]/g,
    (character) => "\\" + octal(character.charCodeAt(0), 3));
}
