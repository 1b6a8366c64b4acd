// Elements of the page and of its pictures.

const SVG = "http://www.w3.org/2000/svg";

export const at = (id) => document.getElementById(id);

// An element with its properties, or attributes if it has no such property, and what stands in it.
export function made(name, values = {}, ...inner) {
  const it = document.createElement(name);
  Object.entries(values).forEach(([key, value]) => (key in it && key !== "role" ? (it[key] = value) : it.setAttribute(key, value)));
  it.append(...inner);
  return it;
}

export function svg(name, values = {}, ...inner) {
  const it = document.createElementNS(SVG, name);
  Object.entries(values).forEach(([key, value]) => it.setAttribute(key, value));
  it.append(...inner);
  return it;
}

// Puts others in place of what stands in an element. If one of its buttons had the focus, the one at its place has it then.
export function refill(element, ...inner) {
  const buttons = () => [...element.querySelectorAll("button")], place = buttons().indexOf(document.activeElement);
  element.replaceChildren(...inner);
  if (place >= 0) buttons().at(Math.min(place, buttons().length - 1))?.focus({ preventScroll: true });
}

export const numbered = (it) => it.toLocaleString("en");
export const clipped = (text, most) => (text.length > most ? `${text.slice(0, Math.max(1, most - 1))}…` : text);
export const classesOf = (...classes) => classes.filter(Boolean).join(" ");

// Changes what is there only if it is another thing: the browser lays out and paints what was touched.
export function alter(element, key, value) {
  if (element.getAttribute(key) !== value) element.setAttribute(key, value);
}
