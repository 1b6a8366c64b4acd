// A picture of the page as a file of its own: its colours and letters are written into it.

const LOOKS = ["fill", "stroke", "stroke-width", "stroke-dasharray", "stroke-linejoin", "paint-order", "opacity", "font-family", "font-size", "font-weight", "text-anchor", "visibility"];
// What an element has from the one around it.
const OWN = ["opacity"];
const DROPPED = ["class", "role", "tabindex", "aria-hidden", "aria-label"];

// Writes into a copy how an element looks, as far as that isn't how the one around it does.
function dress(element, copy, above) {
  const style = getComputedStyle(element), now = Object.fromEntries(LOOKS.map((it) => [it, style.getPropertyValue(it)]));
  for (const it of LOOKS) if (OWN.includes(it) ? now[it] !== "1" : now[it] !== above[it]) copy.setAttribute(it, now[it]);
  for (const it of DROPPED) copy.removeAttribute(it);
  const inner = [...copy.children];
  [...element.children].forEach((it, i) => (getComputedStyle(it).display === "none" && it.tagName !== "title" && !it.closest("defs") ? inner[i].remove() : dress(it, inner[i], now)));
}

// Some pictures, one below the other, as the text of a file.
export function svgFile(pictures, paper) {
  const whole = document.createElementNS("http://www.w3.org/2000/svg", "svg"), sizes = pictures.map((it) => it.getBoundingClientRect());
  const width = Math.max(...sizes.map((it) => it.width)), height = sizes.reduce((sum, it) => sum + it.height, 0);
  const back = document.createElementNS("http://www.w3.org/2000/svg", "rect");
  Object.entries({ xmlns: "http://www.w3.org/2000/svg", width, height, viewBox: `0 0 ${width} ${height}` }).forEach(([key, it]) => whole.setAttribute(key, it));
  Object.entries({ width, height, fill: paper }).forEach(([key, it]) => back.setAttribute(key, it));
  whole.append(back);
  let y = 0;
  pictures.forEach((it, i) => {
    const copy = it.cloneNode(true);
    dress(it, copy, {});
    Object.entries({ width: sizes[i].width, height: sizes[i].height, y }).forEach(([key, to]) => copy.setAttribute(key, to));
    whole.append(copy);
    y += sizes[i].height;
  });
  return `<?xml version="1.0" encoding="UTF-8"?>\n${new XMLSerializer().serializeToString(whole)}\n`;
}
