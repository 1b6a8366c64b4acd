// The same run in twenty other orders of its events: by turns of other lengths. Each channel has to have the same values.

import { at, made, numbered } from "./elements.js";
import { readReport } from "./report.js";
import { page } from "./state.js";
import { asked } from "./telling.js";
import { counted } from "./verdict.js";

// The most events of a turn, for each of the runs.
const TURNS_TRIED = [1, 2, 3, 4, 5, 6, 7, 8, 9, 10, 12, 15, 20, 30, 50, 70, 100, 200, 300, 500];
// A run that doesn't finish is compared up to so many events; and at so many places of a run it is looked at who had done how many events by then.
const MOST_COMPARED = 100000, LOOKED_AT = [0.25, 0.5, 0.75];

const isBeginning = (one, other) => one === other || other.startsWith(`${one} `);

// Whether two runs agree: one that finished comes to the same in all; of others each channel has the first values of the same sequence.
export function agree(one, other, isFinished) {
  if (isFinished) return JSON.stringify([one.ends, one.streams.map(({ name, text }) => [name, text])]) === JSON.stringify([other.ends, other.streams.map(({ name, text }) => [name, text])]);
  return one.streams.every(({ text }, i) => isBeginning(text, other.streams[i].text) || isBeginning(other.streams[i].text, text));
}

// How far each process was at some places of a run, by which two orders differ.
const progressOf = (reports) => JSON.stringify(reports.map(({ ends }) => ends.map((it) => it.events)));

// Makes the runs one after the other. `told` is called with the turns of each, whether it agrees, and how many orders there are for certain.
export async function compareOrders(run, told, isWanted) {
  const isFinished = run.canTurn, bound = Math.min(run.steps, MOST_COMPARED), orders = new Set();
  const at = async (quantum, k) => readReport(await run.runner.ask("whole", { ...run.texts, quantum, bound: String(k) }));
  const looks = async (quantum) => {
    const found = [];
    for (const part of LOOKED_AT) found.push(await at(quantum, Math.floor(part * bound)));
    return progressOf(found);
  };
  const first = await at(run.quantum, bound);
  orders.add(await looks(run.quantum));
  for (const quantum of TURNS_TRIED.filter((it) => it !== run.quantum)) {
    const isSame = agree(first, await at(quantum, bound), isFinished);
    orders.add(await looks(quantum));
    if (!isWanted()) return false;
    told(quantum, isSame, orders.size);
  }
  return true;
}

// Shows them in a dialog, with a tick for each.
export async function showOrders() {
  const { run } = page, dialog = at("orders"), list = made("ol", { className: "ticks" }), result = made("p", { role: "status" }, "Running ..");
  if (!run || page.isOld) return;
  const what = run.canTurn ? "The run has finished, so each order has to come to the same values, and to the same events of each process."
    : `The run was stopped, so only its first ${counted(Math.min(run.steps, MOST_COMPARED), "event is", "events are")} compared: of each channel, the values of one order have to begin those of the other.`;
  const close = made("form", { method: "dialog" }, made("button", {}, "Close"));
  dialog.replaceChildren(close, made("h1", {}, "Other orders, same values"), made("p", {}, `The processes take turns. Turns of other lengths are other orders of the same run. ${what}`), list, result);
  dialog.showModal();
  let same = 0, all = 0, orders = 0;
  const isWanted = () => dialog.open && page.run === run && dialog.contains(list);
  const isDone = await asked(compareOrders(run, (quantum, isSame, found) => {
    [all, same, orders] = [all + 1, same + Number(isSame), found];
    list.append(made("li", { className: isSame ? "same" : "other" }, made("b", {}, isSame ? "✓" : "✗"), ` turns of ${counted(quantum, "event", "events")}: ${isSame ? "the same values" : "other values"}`));
  }, isWanted));
  if (!isWanted()) return;
  if (!isDone) result.textContent = "The runs were ended.";
  else result.textContent = `${same} of ${counted(all, "run has", "runs have")} the same values, in ${counted(orders, "order", "different orders or more")}.`;
}
