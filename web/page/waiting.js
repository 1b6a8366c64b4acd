// How many values wait on a channel over the events of a run, from the numbers of a timeline: exact at each known bound, and within limits between two.

// The parts between known bounds: how many wait at the ends, and the least and the most between them.
export function waitPartsOf(gaps, i) {
  const waits = ({ counts, taken }) => counts[i] - taken[i];
  return gaps.map(({ low, high, from, to }) => ({
    low, high, before: waits(from), after: waits(to), least: Math.max(0, from.counts[i] - to.taken[i]), most: high - low > 1 ? to.counts[i] - from.taken[i] : Math.max(waits(from), waits(to)),
  }));
}

// The greatest number that is known, the first event after which it is so, and whether there may be a greater one.
export function greatestOf(parts) {
  const known = parts.reduce((most, it) => (it.after > most.count ? { count: it.after, at: it.high } : most), { count: parts[0]?.before ?? 0, at: parts[0]?.low ?? 0 });
  return { ...known, isLeast: parts.some((it) => it.most > known.count) };
}

// How many wait after an event: from the least to the most.
export function waitingAt(parts, k) {
  const it = parts.find((one) => k <= one.high);
  if (!it) return { least: 0, most: 0 };
  const exact = k === it.high ? it.after : k === it.low ? it.before : undefined;
  return exact === undefined ? { least: it.least, most: it.most } : { least: exact, most: exact };
}
