// What the modules of the page share: its fields, its texts, and what is shown of which run. Whoever changes that says so, and whoever shows
// it follows; so no module that changes something has to know who shows it.

import { at } from "./elements.js";
import { Diagram } from "./diagram.js";
import { Editor } from "./editor.js";
import { Picture } from "./picture.js";
import { Plots } from "./plots.js";
import { QUANTUM } from "./run.js";
import { Runner } from "./runner.js";
import { Store } from "./store.js";
import { Table } from "./table.js";

export const MOST_BOUND = 281474976710655n, BOUND = "1000000";
export const NOTHING = { processes: [], channels: [] };

export const store = new Store(), runner = new Runner(MODULE), checker = new Runner(MODULE);
export const program = new Editor(at("program"), at("programInk"), { isProgram: true });
export const input = new Editor(at("input"), at("inputInk"), { isProgram: false });
export const picture = new Picture(at("picture")), table = new Table(at("table")), plots = new Plots(at("plots"));
export const diagram = new Diagram(at("diagram"));

// run: what is shown, isOld: of texts before; moment: at event k; chosen: by a press; check: what is marked; number: of the newest run;
// typed: the line in which somebody types, and in which text; turns: the most events of a turn that were chosen;
// width: for which the picture was drawn; name: of the example that the texts are; wiring: of the network that is drawn; isOrdered: whether it
// is known who did the events; isOther: whether the texts were put in place of others since the run; wanted: what a link asks to show of the next run;
// isAlone: whether the picture is shown without the rest.
export const page = {
  run: undefined, isOld: false, moment: undefined, k: 0, chosen: NOTHING, typed: undefined, turns: QUANTUM, check: undefined, number: 0, width: undefined,
  wiring: undefined, isOrdered: false, isOther: false, wanted: undefined, isAlone: false, tab: store.state.tab ?? "table", name: "",
};

// Who is called when something has changed: `moment`, the step and what is chosen; `room`, the sizes of what is shown; `tab`; `texts`, those
// that were run aren't there any more; `run`, one begins; `alone`, the picture; `orders`, they are asked for.
const followers = {};

export function follow(what, act) {
  (followers[what] ??= []).push(act);
}

export function changed(what) {
  followers[what]?.forEach((act) => act());
}

// The bound, which may be written like 1e6; none if the field has no such number.
export function boundOf() {
  const [, digits, zeros = "0"] = /^(\d{1,15})(?:e(\d{1,2}))?$/i.exec(at("bound").value.replace(/[ ,_]/g, "")) ?? [];
  const bound = digits === undefined ? MOST_BOUND + 1n : BigInt(digits) * 10n ** BigInt(zeros);
  return bound <= MOST_BOUND ? bound : undefined;
}

export const texts = () => ({ program: program.text, input: input.text, bound: String(boundOf() ?? BOUND) });

export const isSame = (some, others) => ["program", "input", "bound"].every((it) => some[it] === others[it]);
