// The lines between panes can be dragged, or moved by arrow keys.

const STEP = 2, STEPS = { ArrowLeft: -STEP, ArrowUp: -STEP, ArrowRight: STEP, ArrowDown: STEP };

// name: the property of the root that says how much room the pane before the line has, in hundredths.
export function divider(line, root, { name, isRow, least, most, moved }) {
  const now = () => Number.parseFloat(getComputedStyle(root).getPropertyValue(name));
  const put = (percent) => {
    const to = Math.max(least, Math.min(most, percent));
    root.style.setProperty(name, `${to}%`);
    line.setAttribute("aria-valuenow", Math.round(to));
    moved(name, to);
  };
  Object.entries({ valuemin: least, valuemax: most, valuenow: Math.round(now()) }).forEach(([key, value]) => line.setAttribute(`aria-${key}`, value));
  line.addEventListener("pointerdown", (event) => {
    line.setPointerCapture(event.pointerId);
    event.preventDefault();
    line.focus();
  });
  line.addEventListener("pointermove", (event) => {
    if (!line.hasPointerCapture(event.pointerId)) return;
    const { left, top, width, height } = line.parentElement.getBoundingClientRect();
    put(isRow ? (100 * (event.clientY - top)) / height : (100 * (event.clientX - left)) / width);
  });
  line.addEventListener("keydown", (event) => {
    const step = STEPS[event.key];
    if (!step) return;
    event.preventDefault();
    put(now() + step);
  });
}
