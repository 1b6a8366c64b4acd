// To another step of the run, and what is chosen by a press: a process with its chain of waits, a channel, or a value.

import { isNone, ofChannel, ofPlaces, ofProcess, ofValue } from "./gauges.js";
import { lexemesOf } from "./lexer.js";
import { placesOf } from "./marking.js";
import { chainOf } from "./moment.js";
import { indexAt } from "./places.js";
import { toast } from "./showing.js";
import { changed, NOTHING, page, program } from "./state.js";
import { asked } from "./telling.js";

export async function go(k) {
  const { run } = page;
  if (!run) return;
  const to = Math.max(0, Math.min(run.last, k));
  page.k = to;
  const moment = await asked(run.momentAt(to));
  if (!moment || page.k !== to || page.run !== run) return;
  page.moment = moment;
  if (page.chosen.process !== undefined) page.chosen = { ...chosenOf(page.chosen), value: page.chosen.value };
  changed("moment");
}

export function chosenOf({ process, channel }) {
  const { channels } = page.run.wiring;
  if (process !== undefined) return { process, ...chainOf(process, page.moment.processes, channels) };
  const ends = channel === undefined ? [] : [channels[channel].writer, channels[channel].reader].filter((it) => it >= 0);
  if (channel !== undefined) return { channel, channels: [channel], processes: ends };
  return NOTHING;
}

export function choose({ process, channel }) {
  if (!page.moment || page.isOld) return;
  const isSameAgain = page.chosen !== NOTHING && page.chosen.process === process && page.chosen.channel === channel;
  page.chosen = isSameAgain ? NOTHING : chosenOf({ process, channel });
  changed("moment");
  const [first] = placesOf(page.chosen);
  if (first) program.reveal(first.from);
}

export function chooseNothing() {
  page.chosen = NOTHING;
  changed("moment");
}

export const chooseStream = ({ channel, print }) => choose(print === undefined ? { channel } : { process: print });

// To the event by which a value came, which is chosen.
export async function goToValue(stream, row) {
  const { run } = page, k = run && !page.isOld ? await asked(run.eventOf(stream, row)) : undefined;
  if (k === undefined || page.run !== run) return;
  const { channel, print } = run.streams[stream];
  page.chosen = { ...(page.moment ? chosenOf(print === undefined ? { channel } : { process: print }) : NOTHING), value: { stream, row } };
  await go(k);
}

function gaugeOf({ process, channel, value }) {
  const { streams, wiring } = page.run;
  if (value) return ofValue(streams[value.stream], value.stream, value.row);
  return process === undefined ? ofChannel(wiring.channels[channel]) : ofProcess(process);
}

async function goBy(isNext, gauge, k, none) {
  const { run } = page, { timeline } = run, to = await asked(isNext ? timeline.nextOf(gauge, k) : timeline.previousOf(gauge, k));
  if (page.run !== run || run.timeline !== timeline) return;
  if (to === undefined) toast(none);
  else await go(to);
}

// To the next event of what is chosen, or the one before.
export async function goToOwn(isNext) {
  if (!page.moment || page.isOld) return;
  if (page.chosen === NOTHING) toast("Choose a process, a channel or a value first.");
  else await goBy(isNext, gaugeOf(page.chosen), page.k, isNext ? "It has no further event." : "It has no event before.");
}

// To the next event that can have been in a line of the program; from the end of the run, to the first one.
export async function runToLine(line) {
  if (!page.moment || page.isOld) return;
  const { text } = program, from = indexAt(text, line, 1), end = text.indexOf("\n", from), gauge = ofPlaces(page.run, from, end < 0 ? text.length : end);
  if (isNone(gauge)) toast(`Line ${line} has no event: no wait, send, print or loop.`);
  else await goBy(true, gauge, page.k === page.run.last ? 0 : page.k, `Line ${line} has no further event.`);
}

// A press in the program on a channel or an instance chooses it.
export function chooseAt(index) {
  if (!page.moment || page.isOld) return;
  const { channels, processes } = page.run.wiring;
  const name = lexemesOf(program.text).find((it) => it.from <= index && index <= it.to && it.kind === "name");
  const process = processes.findIndex((it) => it.from === name?.from), isInstances = index >= Math.min(...processes.map((it) => it.from));
  const channel = channels.find((it) => it.name === name?.text && (isInstances || it.place?.from === name?.from));
  page.chosen = chosenOf(process >= 0 ? { process } : { channel: channel?.number });
  changed("moment");
}
