// How many events each process has done, and how many values each stream has and has given, at each bound. The proved run at a bound says it. These
// numbers only grow, and the events add up to the bound; so between two bounds of which only one process moved the events are known
// without a run. Any other gap is halved until time is up.

// In so many parts of a run is learnt who did its events: the strip that shows it has no more points.
const MOST_PARTS = 1000, MOST_PARTS_OF_WAITS = 250;

const total = (numbers) => numbers.reduce((sum, it) => sum + it, 0);
const grownOf = (from, to) => from.flatMap((it, i) => (it === to[i] ? [] : [i]));

// What the ends of a gap leave open: who moved, or by which events the streams grew.
const isOrderOpen = (from, to) => grownOf(from.events, to.events).length > 1;

function areTimesOpen(from, to) {
  const grown = total(to.counts) - total(from.counts);
  return grown > 0 && (grown < total(to.events) - total(from.events) || grownOf(from.counts, to.counts).length > 1);
}

export class Timeline {
  // end: the numbers at the last step; ask: those at a bound, from the module.
  constructor(end, ask) {
    const zeros = (list) => list.map(() => 0), start = { events: zeros(end.events), counts: zeros(end.counts), taken: zeros(end.taken) }, steps = total(end.events);
    Object.assign(this, { steps, ask, bounds: [...new Set([0, steps])], known: new Map([[0, start], [steps, end]]), order: undefined, times: undefined });
  }

  async learn(k) {
    if (!this.known.has(k)) {
      const told = await this.ask(k);
      if (!this.known.has(k)) this.bounds.push(k);
      this.known.set(k, told);
    }
    return this.known.get(k);
  }

  // The gaps between the known bounds, with their numbers.
  gaps() {
    this.bounds.sort((a, b) => a - b);
    return this.bounds.slice(1).map((high, i) => ({ low: this.bounds[i], high, from: this.known.get(this.bounds[i]), to: this.known.get(high) }));
  }

  // Halves the gaps that are open and wider than some events until none is, the time is up or nobody wants it any more; says whether none is.
  async close(isOpen, end, isWanted, finest = 1) {
    for (;;) {
      const open = this.gaps().filter((it) => it.high - it.low > finest && isOpen(it.from, it.to));
      if (!open.length) return true;
      for (const { low, high } of open) {
        if (performance.now() > end) return false;
        await this.learn((low + high) >> 1);
        if (!isWanted()) return false;
      }
    }
  }

  // Learns who did each event; of a long run, who did some in each of many parts.
  async learnOrder(milliseconds, isWanted) {
    const finest = Math.ceil(this.steps / MOST_PARTS);
    if ((await this.close(isOrderOpen, performance.now() + milliseconds, isWanted, finest)) && finest <= 1) this.order = this.ordered();
    return this.order !== undefined;
  }

  // The parts of the run as far as they are known: from which event to which, and the processes that did these.
  parts() {
    return this.gaps().map(({ low, high, from, to }) => ({ low, high, movers: grownOf(from.events, to.events) }));
  }

  ordered() {
    const order = new Uint8Array(this.steps);
    for (const { low, high, from, to } of this.gaps()) order.fill(grownOf(from.events, to.events)[0], low, high);
    return order;
  }

  // Learns by which event each value of each stream came.
  async learnTimes(milliseconds, isWanted) {
    if (!this.times && (await this.close(areTimesOpen, performance.now() + milliseconds, isWanted))) this.times = this.timed();
    return this.times !== undefined;
  }

  // Learns how many values wait on some streams: coarsely all over the run, and the greatest number exactly, as far as there is time. Where no more can
  // wait than is known already, nothing is asked.
  async learnWaits(streams, milliseconds, isWanted) {
    const end = performance.now() + milliseconds, waits = ({ counts, taken }, i) => counts[i] - taken[i];
    const isCoarse = (from, to) => streams.some((i) => to.counts[i] - from.taken[i] > 1 + Math.max(waits(from, i), waits(to, i)));
    if (!(await this.close(isCoarse, end, isWanted, Math.ceil(this.steps / MOST_PARTS_OF_WAITS)))) return false;
    const greatest = (i) => this.bounds.reduce((most, k) => Math.max(most, waits(this.known.get(k), i)), 0);
    for (const i of streams) {
      let most = greatest(i), count = this.known.size;
      const known = () => (this.known.size === count ? most : ((count = this.known.size), (most = greatest(i))));
      if (!(await this.close((from, to) => to.counts[i] - from.taken[i] > known(), end, isWanted))) return false;
    }
    return true;
  }

  timed() {
    const times = this.known.get(0).counts.map(() => []);
    for (const { low, high, from, to } of this.gaps()) {
      const grown = grownOf(from.counts, to.counts)[0];
      if (grown !== undefined) for (let k = low + 1; k <= high; k++) times[grown].push(k);
    }
    return times;
  }

  // The first event after which a gauge, a number that only grows, is so much, or none.
  async firstWith(gauge, least) {
    if (gauge(this.known.get(this.steps)) < least) return undefined;
    let low = 0, high = this.steps;
    while (high - low > 1) {
      const middle = (low + high) >> 1;
      if (gauge(await this.learn(middle)) < least) low = middle;
      else high = middle;
    }
    return high;
  }

  // The next event past k by which a gauge grows, or the last one before k; or none.
  async nextOf(gauge, k) {
    return k < this.steps ? this.firstWith(gauge, gauge(await this.learn(k)) + 1) : undefined;
  }

  async previousOf(gauge, k) {
    const least = k > 0 ? gauge(await this.learn(Math.min(k, this.steps + 1) - 1)) : 0;
    return least > 0 ? this.firstWith(gauge, least) : undefined;
  }
}
