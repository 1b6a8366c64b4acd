// The events of a part of a run, and which take each send leads to: from the numbers of a timeline at neighbouring bounds.

// The event by which the numbers at one bound became those at the next: who did it, and the stream and row of its value.
export function eventBetween(k, from, to, streams) {
  const grown = (key) => to[key].findIndex((it, i) => it !== from[key][i]), who = grown("events"), taken = grown("taken");
  if (taken >= 0) return { k, who, kind: "take", stream: taken, row: to.taken[taken] - 1 };
  const sent = grown("counts");
  if (sent < 0) return { k, who, kind: "turn", stream: -1, row: -1 };
  return { k, who, kind: streams[sent].print === undefined ? "send" : "print", stream: sent, row: to.counts[sent] - 1 };
}

// The events from one bound to another, as far as both bounds of each are known.
export function eventsWithin({ known }, low, high, streams) {
  const found = [];
  for (let k = low + 1; k <= high; k++) {
    if (known.has(k - 1) && known.has(k)) found.push(eventBetween(k, known.get(k - 1), known.get(k), streams));
  }
  return found;
}

// The bounds of a part that aren't known, those next to a bound first.
export function openBounds({ known }, low, high, near) {
  const open = [];
  for (let k = low; k <= high; k++) if (!known.has(k)) open.push(k);
  return open.sort((a, b) => Math.abs(a - near) - Math.abs(b - near));
}

// The values that came or went by some events: by which event each was sent, and by which it was taken. One that came or went by another event has
// none; `isLeft` says that no event of the run takes it.
export function passages(events, { known, steps }) {
  const byValue = new Map(), end = known.get(steps);
  for (const { k, kind, stream, row } of events) {
    if (kind !== "send" && kind !== "take") continue;
    const name = `${stream} ${row}`;
    if (!byValue.has(name)) byValue.set(name, { stream, row, sent: undefined, taken: undefined, isLeft: end.taken[stream] <= row });
    byValue.get(name)[kind === "send" ? "sent" : "taken"] = k;
  }
  return [...byValue.values()];
}
