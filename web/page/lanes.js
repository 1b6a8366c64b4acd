// The curves of the lanes of plots: values as steps, logical ones as a strip, and how many values wait as a band.

import { svg } from "./elements.js";

// So many values in sight have a point each, or a step each; of more, each step goes from the least to the greatest of some.
const MOST_POINTS = 160, MOST_DRAWN = 2400, LEAST_MARK = 4;

// The places in a list of those values that are in sight, with one before and one after: from and to.
function inSight(count, spotOf, left, right) {
  const first = (x) => {
    let low = 0, high = count;
    while (low < high) {
      const middle = (low + high) >> 1;
      if (spotOf(middle) < x) low = middle + 1;
      else high = middle;
    }
    return low;
  };
  return [Math.max(0, first(left) - 1), Math.min(count, first(right) + 1)];
}

// view: xOf, of a spot of the axis; left and right, the ends of what is in sight; end, where the last value ends; spotOf, of a row of the lane.
function stepsOf({ numbers, yOf, spotOf, isByEvent }, { xOf, end }, from, to) {
  const each = Math.max(1, Math.ceil((to - from) / MOST_DRAWN)), up = (it) => yOf(it).toFixed(1), width = xOf(1) - xOf(0);
  let path = "";
  for (let i = from; i < to; i += each) {
    const x = spotOf(i), isLast = i + each >= numbers.length, some = numbers.slice(i, i + each), next = isLast ? Math.min(end, x + (isByEvent ? Infinity : width)) : spotOf(i + each);
    const [first, ...others] = each === 1 ? some : [Math.min(...some), Math.max(...some)];
    path += `${i > from ? "V" : `M${x.toFixed(1)} `}${up(first)}${others.map((it) => `V${up(it)}`).join("")}H${next.toFixed(1)}`;
  }
  return path;
}

function stripOf({ numbers, y, height, spotOf }, { xOf, end }, from, to) {
  const gap = to - from < 200 ? 1 : 0, found = [];
  for (let i = from; i < to; i++) {
    const x = spotOf(i), last = Math.min(end, x + Math.max(LEAST_MARK, xOf(1) - xOf(0))), next = i + 1 < numbers.length ? spotOf(i + 1) : last;
    const shape = numbers[i] ? { y: y + 5, height: height - 10 } : { y: y + height - 9, height: 4 };
    found.push(svg("rect", { class: String(Boolean(numbers[i])), x, width: Math.max(1, next - x - gap), ...shape }));
  }
  return found;
}

// Of the values of a lane those in sight; `points` are those of single values, by their rows.
export function curveOf(lane, view) {
  const { numbers, stream, spotOf, yOf } = lane, [from, to] = inSight(numbers.length, spotOf, view.left, view.right);
  lane.points = new Map();
  if (stream.isLogical && to - from <= MOST_DRAWN) return stripOf(lane, view, from, to);
  const zero = svg("line", { class: "zero", x1: view.left, x2: view.right, y1: yOf(0), y2: yOf(0) });
  if (to - from <= MOST_POINTS) for (let i = from; i < to; i++) lane.points.set(i, svg("circle", { cx: spotOf(i), cy: yOf(numbers[i]), r: 2.4 }));
  return [zero, svg("path", { class: "steps", d: stepsOf(lane, view, from, to) }), ...lane.points.values()];
}

// How many wait: a line at known bounds, and a band from the least to the most between them.
export function bandOf({ parts, yOf }, { xOf, left, right }) {
  let line = "", band = "";
  for (const { low, high, before, after, least, most } of parts.filter((it) => xOf(it.high) >= left && xOf(it.low) <= right)) {
    line += `${line ? "L" : "M"}${xOf(low).toFixed(1)} ${yOf(before).toFixed(1)}${high - low > 1 ? "L" : "H"}${xOf(high).toFixed(1)}${high - low > 1 ? ` ${yOf(after).toFixed(1)}` : `V${yOf(after).toFixed(1)}`}`;
    if (most > Math.max(before, after) || least < Math.min(before, after)) band += `M${xOf(low).toFixed(1)} ${yOf(most).toFixed(1)}H${xOf(high).toFixed(1)}V${yOf(least).toFixed(1)}H${xOf(low).toFixed(1)}z`;
  }
  return [svg("path", { class: "band", d: band }), svg("path", { class: "steps", d: line })];
}
