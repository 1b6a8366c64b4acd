// What events are looked for by: numbers that only grow, made of those of a timeline at a bound. With each event of what is looked for one
// grows by one; so the next one is found by halving.

const none = () => 0;
const added = (gauges) => (numbers) => gauges.reduce((all, it) => all + it(numbers), 0);
const sentOn = (i) => ({ counts }) => counts[i];
const takenFrom = (i) => ({ taken }) => taken[i];

export const ofProcess = (i) => ({ events }) => events[i];

// The sends and takes of a channel. Of an input only the takes are events.
export const ofChannel = ({ number, role }) => (role === "input" ? takenFrom(number) : added([sentOn(number), takenFrom(number)]));

// The events by which a value came and went.
export function ofValue({ role, channel }, stream, row) {
  const reached = (gauge) => (numbers) => Number(gauge(numbers) > row);
  return added([...(role === "input" ? [] : [reached(sentOn(stream))]), ...(channel === undefined ? [] : [reached(takenFrom(stream))])]);
}

// The turns of loops of a process: those of its events by which no value came or went.
function ofTurns(i, { channels }, streams) {
  const sends = channels.filter((it) => it.writer === i).map((it) => sentOn(it.number)), takes = channels.filter((it) => it.reader === i).map((it) => takenFrom(it.number));
  const others = added([...sends, ...takes, ...streams.flatMap((it, at) => (it.print === i ? [sentOn(at)] : []))]);
  return (numbers) => numbers.events[i] - others(numbers);
}

// The events that can have been at a part of the program; for a declaration those of its channels, for an instance all of its own.
export function ofPlaces({ wiring, streams }, from, to) {
  const isHere = (it) => it !== undefined && it.from >= from && it.from < to, { processes, channels } = wiring;
  const ofEach = channels.flatMap((it) => {
    if (isHere(it.place)) return [ofChannel(it)];
    return [...(it.sends.some(isHere) ? [sentOn(it.number)] : []), ...(it.waits.some(isHere) ? [takenFrom(it.number)] : [])];
  });
  const ofOthers = processes.flatMap((it, i) => {
    if (isHere(it)) return [ofProcess(i)];
    const prints = it.body.prints.some(isHere) ? streams.flatMap((stream, at) => (stream.print === i ? [sentOn(at)] : [])) : [];
    return [...prints, ...(it.body.turns.some(isHere) ? [ofTurns(i, wiring, streams)] : [])];
  });
  return ofEach.length + ofOthers.length ? added([...ofEach, ...ofOthers]) : none;
}

export const isNone = (gauge) => gauge === none;
