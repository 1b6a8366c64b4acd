// In which column each box of a network is, and in which order boxes and arrows come in a column, so that few arrows cross (the method of
// Gansner, Koutsofios, North and Vo, 1993). An arrow over several columns has a point in each between; one that closes a ring is turned round.

const ROUNDS = 8, MOST_SIFTS = 6, MOST_PULLS = 20;
// So many orders to begin with are tried: less for a network of many boxes and points.
const MOST_STARTS = 24, WORK = 2400;

// Turns round the arrows that close a ring: those that lead to a box from which the search came.
function turn(boxes, edges) {
  const state = new Map(), outs = new Map(boxes.map((it) => [it, []]));
  edges.forEach((it) => outs.get(it.from).push(it));
  const visit = (box) => {
    state.set(box, "open");
    for (const edge of outs.get(box)) {
      if (state.get(edge.to) === "open") edge.isBack = true;
      else if (!state.has(edge.to)) visit(edge.to);
    }
    state.set(box, "done");
  };
  const reached = new Set(edges.map((it) => it.to));
  [...boxes.filter((it) => !reached.has(it)), ...boxes].forEach((it) => state.has(it) || visit(it));
  for (const it of edges) [it.low, it.high] = it.isBack ? [it.to, it.from] : [it.from, it.to];
}

// Gives each box the first column behind all that lead to it, then pulls it to where its arrows are shortest. Gives the number of columns.
function rank(boxes, edges) {
  const ins = new Map(boxes.map((it) => [it, []])), outs = new Map(boxes.map((it) => [it, []]));
  edges.forEach(({ low, high }) => ins.get(high).push(low) && outs.get(low).push(high));
  const open = new Map(boxes.map((it) => [it, ins.get(it).length])), queue = boxes.filter((it) => !open.get(it));
  boxes.forEach((it) => (it.rank = 0));
  for (const box of queue) {
    for (const to of outs.get(box)) {
      to.rank = Math.max(to.rank, box.rank + 1);
      open.set(to, open.get(to) - 1);
      if (!open.get(to)) queue.push(to);
    }
  }
  for (let round = 0, isMoved = true; isMoved && round < MOST_PULLS; round++) {
    isMoved = false;
    for (const box of round % 2 ? queue : [...queue].reverse()) {
      const [before, behind] = [ins.get(box), outs.get(box)], pull = behind.length - before.length;
      const last = () => Math.min(...behind.map((it) => it.rank)) - 1, first = () => Math.max(...before.map((it) => it.rank)) + 1;
      const to = pull > 0 ? last() : pull < 0 ? first() : box.rank;
      if (to !== box.rank) [box.rank, isMoved] = [to, true];
    }
  }
  const ranks = [...new Set(boxes.map((it) => it.rank))].sort((a, b) => a - b);
  boxes.forEach((it) => (it.rank = ranks.indexOf(it.rank)));
  return ranks.length;
}

// Gives each arrow the items that it passes, from its lower end to its higher one, and gives the points among them.
function thread(edges) {
  const points = [];
  for (const edge of edges) {
    const between = Array.from({ length: edge.high.rank - edge.low.rank - 1 }, (_, i) => ({ rank: edge.low.rank + 1 + i, isPoint: true }));
    points.push(...between);
    edge.items = [edge.low, ...between, edge.high];
  }
  return points;
}

// Numbers from 0 to 1 that are the same at each call.
function dice() {
  let seed = 1;
  return () => (seed = (seed * 48271) % 2147483647) / 2147483647;
}

// How many pairs cross if the one with these neighbours comes before the other.
function crossed(some, others, spot) {
  let count = 0;
  for (const a of some) for (const b of others) if (spot[b] < spot[a]) count += 1;
  return count;
}

// An order of the items of all columns, by their numbers: `spot` has the place of each in its column.
class Order {
  constructor(columns, ins, outs) {
    Object.assign(this, { columns, ins, outs, spot: [] });
    columns.forEach((it) => this.place(it));
  }

  place(column) {
    column.forEach((it, i) => (this.spot[it] = i));
  }

  // All crossings: of the arrows between two columns, in order of their ends, by a tree of sums.
  crossings() {
    return this.columns.reduce((sum, column) => {
      const ends = column.flatMap((it) => this.outs[it].map((to) => this.spot[to]).sort((a, b) => a - b));
      const size = Math.max(0, ...ends) + 2, tree = new Int32Array(size + 1);
      ends.forEach((end, i) => {
        let before = 0;
        for (let at = end + 1; at > 0; at -= at & -at) before += tree[at];
        sum += i - before;
        for (let at = end + 1; at <= size; at += at & -at) tree[at] += 1;
      });
      return sum;
    }, 0);
  }

  // The weighted median of the neighbours' places; without a neighbour the own place.
  median(it, near) {
    const spots = near[it].map((one) => this.spot[one]).sort((a, b) => a - b), { length } = spots, half = length >> 1;
    if (!length) return this.spot[it];
    if (length % 2) return spots[half];
    if (length === 2) return (spots[0] + spots[1]) / 2;
    const left = spots[half - 1] - spots[0], right = spots[length - 1] - spots[half];
    return left + right ? (spots[half - 1] * right + spots[half] * left) / (left + right) : spots[half];
  }

  sort(near, columns) {
    for (const column of columns) {
      const wanted = new Map(column.map((it) => [it, this.median(it, near)]));
      column.sort((a, b) => wanted.get(a) - wanted.get(b) || this.spot[a] - this.spot[b]);
      this.place(column);
    }
  }

  // By how much fewer pairs cross if the two change places.
  gain(a, b) {
    const { ins, outs, spot } = this, before = crossed(ins[a], ins[b], spot) + crossed(outs[a], outs[b], spot);
    return before && before - crossed(ins[b], ins[a], spot) - crossed(outs[b], outs[a], spot);
  }

  // Exchanges neighbours as long as it helps.
  exchange() {
    for (let isBetter = true; isBetter; ) {
      isBetter = false;
      for (const column of this.columns) {
        for (let i = 0; i + 1 < column.length; i++) {
          if (this.gain(column[i], column[i + 1]) <= 0) continue;
          [column[i], column[i + 1]] = [column[i + 1], column[i]];
          this.place(column);
          isBetter = true;
        }
      }
    }
  }

  // Puts each item where the fewest of its arrows cross, as long as it helps.
  sift() {
    for (let round = 0, isBetter = true; isBetter && round < MOST_SIFTS; round++) {
      isBetter = false;
      for (const column of this.columns) for (const it of [...column]) isBetter = this.siftOne(column, it) || isBetter;
    }
  }

  siftOne(column, it) {
    const { ins, outs, spot } = this, from = column.indexOf(it), others = column.filter((one) => one !== it);
    const change = others.map((one) => crossed(ins[one], ins[it], spot) + crossed(outs[one], outs[it], spot)
      - crossed(ins[it], ins[one], spot) - crossed(outs[it], outs[one], spot));
    let sum = 0, here = 0, best = 0, to = 0;
    for (let i = 0; i <= others.length; i++) {
      if (sum < best) [best, to] = [sum, i];
      if (i === from) here = sum;
      sum += change[i] ?? 0;
    }
    if (best >= here) return false;
    others.splice(to, 0, it);
    column.splice(0, column.length, ...others);
    this.place(column);
    return true;
  }

  copy() {
    return this.columns.map((it) => [...it]);
  }
}

// Improves an order by medians, both ways, and exchanges, as long as that helps; `keep` takes each that comes up, and says how many cross.
function improved(order, keep) {
  for (let round = 0, left = 3, least = Infinity; round < ROUNDS && left && least; round++) {
    if (round % 2) order.sort(order.outs, [...order.columns].reverse());
    else order.sort(order.ins, order.columns);
    order.exchange();
    const count = keep(order);
    [least, left] = count < least ? [count, 3] : [least, left - 1];
  }
  order.sift();
  keep(order);
}

// The order with the fewest crossings, from several beginnings.
function sorted(start, ins, outs, starts) {
  let best = start, fewest = Infinity;
  const roll = dice(), mixed = (column) => column.map((it) => [roll(), it]).sort(([a], [b]) => a - b).map(([, it]) => it);
  const keep = (order) => {
    const count = order.crossings();
    if (count < fewest) [best, fewest] = [order.copy(), count];
    return count;
  };
  for (let i = 0; i < starts && fewest; i++) {
    improved(new Order(start.map((it) => (i > 1 ? mixed(it) : i ? [...it].reverse() : [...it])), ins, outs), keep);
  }
  return { columns: best, crossings: fewest };
}

// The items of each column, by their numbers, in the order of a search along the arrows.
function searched(items, ins, outs, count) {
  const columns = Array.from({ length: count }, () => []), seen = new Set(), visit = (i) => {
    if (seen.has(i)) return;
    seen.add(i);
    columns[items[i].rank].push(i);
    outs[i].forEach(visit);
    ins[i].forEach(visit);
  };
  items.forEach((_, i) => visit(i));
  return columns;
}

// The columns of the boxes and points of a network, each in order, and how many arrows cross.
export function layered(boxes, edges) {
  turn(boxes, edges);
  const count = rank(boxes, edges), items = [...boxes, ...thread(edges)], numbers = new Map(items.map((it, i) => [it, i]));
  const ins = items.map(() => []), outs = items.map(() => []);
  for (const { items: passed } of edges) {
    passed.slice(1).forEach((it, i) => {
      ins[numbers.get(it)].push(numbers.get(passed[i]));
      outs[numbers.get(passed[i])].push(numbers.get(it));
    });
  }
  const starts = Math.max(2, Math.min(MOST_STARTS, Math.round(WORK / items.length)));
  const found = sorted(searched(items, ins, outs, count), ins, outs, starts), columns = found.columns.map((column) => column.map((it) => items[it]));
  columns.forEach((column) => column.forEach((it, i) => (it.spot = i)));
  return { columns, crossings: found.crossings };
}
