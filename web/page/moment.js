// What the network looks like after so many events: how each process stands, what waits on each channel, and what the last event was.

// The processes whose waits lead from one to the next and back.
function ringOf(processes, channels) {
  const byName = new Map(channels.map((it) => [it.name, it])), inRing = new Set();
  const writer = (i) => (processes[i]?.state === "waits" ? byName.get(processes[i].on)?.writer ?? -1 : -1);
  processes.forEach((_, i) => {
    for (let at = writer(i), steps = 0; at >= 0 && steps < processes.length; at = writer(at), steps++) if (at === i) inRing.add(i);
  });
  return inRing;
}

// The chain of waits from a process to its cause: numbers of processes, the channels between them, and at which process it closes.
export function chainOf(start, processes, channels) {
  const chain = { processes: [start], channels: [], ring: undefined };
  for (let at = start; processes[at]?.state === "waits"; ) {
    const channel = channels.find((it) => it.name === processes[at].on);
    if (!channel) break;
    chain.channels.push(channel.number);
    at = channel.writer;
    if (chain.processes.includes(at)) chain.ring = at;
    if (at < 0 || chain.ring !== undefined) break;
    chain.processes.push(at);
  }
  return chain;
}

// What the module says of a bound, and how what it says of the bound before differs.
export function momentOf({ wiring }, k, report, before) {
  const mover = before ? report.ends.findIndex((it, i) => it.events !== before.ends[i].events) : -1;
  return {
    k, processes: report.ends, streams: report.streams, ring: ringOf(report.ends, wiring.channels), mover,
    event: mover < 0 ? undefined : eventOf(wiring, mover, report, before),
  };
}

// The event between two neighbours, of which the process that moved did one more: what it changed says which it was. `stream` and `row` are
// the value that came or went; `places` are those in the text where it can have been.
function eventOf({ processes, channels }, mover, { streams }, before) {
  const { number, name, body } = processes[mover], who = `${number} ${name}`;
  const changed = (key) => streams.findIndex((it, i) => it[key] !== before.streams[i][key]);
  const taken = changed("taken"), sent = changed("count"), stream = Math.max(taken, sent), row = taken < 0 ? streams[sent]?.count - 1 : streams[taken].taken - 1;
  const value = streams[stream]?.valueAt(row), channel = channels[stream], event = { who, stream, row, channel: channel ? stream : -1 };
  if (taken >= 0) return { ...event, kind: "take", words: `takes ${value} from ${channel.name}`, places: channel.waits };
  if (channel) return { ...event, kind: "send", words: `sends ${value} on ${channel.name}`, places: channel.sends };
  if (stream >= 0) return { ...event, kind: "print", words: `prints ${value}`, places: body.prints };
  return { ...event, kind: "turn", words: "begins a turn of a loop", places: body.turns };
}

// Where an event was, if the text leaves one place.
export const onlyPlace = (event) => (event?.places.length === 1 ? event.places[0] : undefined);

// How many values of a stream have come: of an input those that were taken, where that is known.
export const cameOf = (stream, { count, taken }) => (stream.role === "input" ? taken ?? count : count);

export function stateWords({ state, on }) {
  return { ready: "ready to go on", waits: `waits on ${on}`, ended: "ended", fault: `fault: ${on === "division" ? "division by 0" : on}` }[state] ?? "";
}
