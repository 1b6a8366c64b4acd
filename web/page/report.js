// Reads a report, or the text of a run that kept all channels: its streams, how each process stands, and how the run ended.

const STATES = [
  ["ended", /^ended after (\d+)$/],
  ["fault", /^fault (\w+) after (\d+)$/],
  ["ready", /^wants more after (\d+)$/],
  ["waits", /^waits on (\w+) after (\d+)$/],
];

function endOf(words) {
  for (const [state, form] of STATES) {
    const found = form.exec(words);
    if (found) return { state, on: found.length > 2 ? found[1] : "", events: Number(found.at(-1)) };
  }
  return { state: "unknown", on: "", events: 0 };
}

// Of a long stream the first values are kept; its number of values and its last one are always known.
const MOST_VALUES = 100000;

function countOf(text) {
  let count = 0;
  for (let i = text.indexOf(" "); i >= 0; i = text.indexOf(" ", i + 1)) count += 1;
  return count;
}

// A channel, or what a process printed if it has the number of one. Its values are looked for in the text when they are asked for.
export class Stream {
  constructor(parts) {
    Object.assign(this, parts);
  }

  get values() {
    return (this.kept ??= this.text.split(" ", MOST_VALUES + 1).slice(1));
  }

  // The value of a row, also behind those that are kept.
  valueAt(row) {
    if (row < MOST_VALUES) return this.values[row];
    if (row === this.count - 1) return this.last;
    const { text, mark = { row: -1, from: 0 } } = this;
    let { from } = mark;
    for (let i = mark.row; i < row; i++) from = text.indexOf(" ", from) + 1;
    for (let i = mark.row; i > row; i--) from = text.lastIndexOf(" ", from - 2) + 1;
    this.mark = { row, from };
    const end = text.indexOf(" ", from);
    return text.slice(from, end < 0 ? undefined : end);
  }

  get last() {
    return this.text.slice(this.text.lastIndexOf(" ") + 1);
  }
}

// Where all channels were kept each stands there in order of declaration, with how many of its values were taken; else those of outputs.
export function readReport(text) {
  const streams = [], ends = [], byName = new Map();
  const put = (it) => streams.push(new Stream(it)) && byName.set(it.name, streams.at(-1));
  let verdict = { kind: "none", events: 0 };
  for (const line of text.split("\n")) {
    const end = /^end (\d+) (\w+): (.*)$/.exec(line), print = /^print (\d+) (\w+):(.*)$/.exec(line), channel = /^(\w+):(.*)$/.exec(line);
    const count = /^count (\w+): (\d+) (\d+)$/.exec(line), last = /^(finished|stopped by bound|stopped by memory) (\d+)$/.exec(line);
    if (end) ends.push({ number: Number(end[1]), name: end[2], ...endOf(end[3]) });
    else if (count) put({ name: count[1], count: Number(count[2]), taken: Number(count[3]), text: "" });
    else if (print) put({ process: Number(print[1]), name: `${print[1]} ${print[2]}`, count: countOf(print[3]), text: print[3] });
    else if (last) verdict = { kind: last[1], events: Number(last[2]) };
    else if (channel && byName.has(channel[1])) byName.get(channel[1]).text = channel[2];
    else if (channel) put({ name: channel[1], count: countOf(channel[2]), text: channel[2] });
  }
  return { streams, ends, verdict };
}

// Whether a run came to a report; otherwise it has the line of a fault.
export const isReport = (text) => /\n(?:finished|stopped by bound|stopped by memory) \d+\n$/.test(text.slice(-60));
