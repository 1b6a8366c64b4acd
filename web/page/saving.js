// What is shown as files: pictures and values.

import { at, made, numbered } from "./elements.js";
import { svgFile } from "./pictures.js";
import { toast } from "./showing.js";
import { diagram, follow, page, plots } from "./state.js";
import { download } from "./store.js";
import { asked } from "./telling.js";
import { csvOf, vcdOf } from "./values.js";

const nameOfFile = (part) => `${page.name || "network"}${part ? `-${part}` : ""}`;
const paper = () => getComputedStyle(at("results")).backgroundColor;

function savePictures(part, pictures) {
  download(`${nameOfFile(part)}.svg`, svgFile(pictures, paper()), "image/svg+xml");
}

export const savePicture = () => savePictures("", [at("picture").querySelector("svg")]);

function saveTable() {
  const { run } = page;
  download(`${nameOfFile("")}.csv`, csvOf(run.final.streams), "text/csv");
  if (!run.end && run.streams.some((it) => it.role === "inner" || it.role === "input")) toast(`Of channels that are no outputs, the file has the values of the first ${numbered(run.steps)} events.`);
}

// The values over the events, once it is known by which each came.
async function saveChanges() {
  const { run } = page;
  if (!(await asked(run.learnTimes(() => page.run === run)))) {
    if (page.run === run) toast("To find the events of so many values takes too long.");
  } else if (page.run === run) download(`${nameOfFile("")}.vcd`, vcdOf(run.streams, run.final.streams, run.timeline.times, run.steps), "text/plain");
}

const CSV = ["CSV", "All values as a table (CSV)", saveTable], VCD = ["VCD", "All values over the events, for a viewer of waves (VCD)", saveChanges];
const SAVED = {
  table: [CSV],
  plots: [CSV, VCD, ["SVG", "The plots as a picture", () => savePictures("plots", [plots.axis, plots.svg])]],
  diagram: [["SVG", "The diagram as a picture", () => savePictures(`events-${diagram.first + 1}`, [...at("diagram").querySelectorAll(":scope > svg")])]],
};

// The buttons of the tab.
function showSaving() {
  const buttons = page.moment && !page.isOld ? SAVED[page.tab] ?? [] : [];
  if (at("saving").dataset.of === page.tab && at("saving").childElementCount === buttons.length) return;
  at("saving").dataset.of = page.tab;
  at("saving").replaceChildren(...buttons.map(([words, title, onclick]) => made("button", { title, onclick }, words)));
}

follow("moment", showSaving);
follow("tab", showSaving);
