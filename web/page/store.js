// Texts are kept in the browser, and what was replaced too. They go out as a link, as files, and come in as such.

import { isExample } from "./examples.js";

const KEY = "kahn.page", MOST_KEPT = 12, MOST_LINK = 32000, MOST_FILE = 16777216, DIGITS = /^\d{1,15}$/;

// A place to keep things, or none if the browser refuses it.
function place(name) {
  try {
    return globalThis[name];
  } catch {
    return undefined;
  }
}

function stored(name) {
  try {
    return { ...JSON.parse(place(name)?.getItem(KEY) ?? "{}") };
  } catch {
    return {};
  }
}

// What is kept is shared with other tabs. The texts of this one, and the name of their example, are in its session too.
export class Store {
  constructor() {
    this.state = { yours: [], ...stored("localStorage") };
    const { texts, name } = { ...this.state, ...stored("sessionStorage") };
    Object.assign(this, { texts, name, written: JSON.stringify(texts) });
    this.put({});
  }

  put(values) {
    this.state = { ...this.state, ...stored("localStorage"), ...values };
    return this.write();
  }

  // Where there is no room the oldest of what was replaced goes.
  write() {
    const shared = place("localStorage");
    for (this.isKept = false; shared && !this.isKept; ) {
      try {
        shared.setItem(KEY, JSON.stringify(this.state));
        this.isKept = true;
      } catch {
        if (!this.state.yours.length) break;
        this.state.yours.pop();
      }
    }
    return this.isKept;
  }

  // What is about to be replaced, so that it can be had again.
  keep(texts) {
    if (!texts.program.trim() || isExample(texts)) return;
    const { yours = this.state.yours } = stored("localStorage");
    const others = yours.filter((it) => it.program !== texts.program || it.input !== texts.input);
    this.put({ yours: [{ ...texts, when: Date.now() }, ...others].slice(0, MOST_KEPT) });
  }

  // The texts of the page. Those that another tab put meanwhile are kept beside them.
  putTexts(texts, name) {
    const { texts: there } = stored("localStorage");
    if (there && JSON.stringify(there) !== this.written) this.keep(there);
    this.written = JSON.stringify(texts);
    try {
      place("sessionStorage")?.setItem(KEY, JSON.stringify({ texts, name }));
    } catch {
      // (the shared place has them)
    }
    return this.put({ texts, name });
  }
}

// What is shown of a run, as an address has it: its step and turns, the tab, a process by its number or a channel by its name, and whether the picture is alone.
function viewIn(words) {
  const number = (name) => (DIGITS.test(words.get(name) ?? "") ? Number(words.get(name)) : undefined);
  const view = { step: number("step"), turns: number("turns"), process: number("process"), channel: words.get("channel") ?? undefined, tab: words.get("tab") ?? undefined };
  return { ...view, isAlone: words.get("view") === "picture" };
}

// What the address carries after its #, or none.
export function carried(hash) {
  const words = new URLSearchParams(hash.slice(1)), bound = words.get("bound") ?? "";
  if (!words.has("program")) return undefined;
  return { program: words.get("program"), input: words.get("input") ?? "", bound: DIGITS.test(bound) ? bound : undefined, view: viewIn(words) };
}

export function clearAddress() {
  if (location.hash) history.replaceState(null, "", location.pathname + location.search);
}

// The link to the texts, and to what is shown of them. A page that is a file has no address for others; then it is what goes behind the address of theirs.
export function linkOf(texts, view = {}) {
  const shown = Object.entries(view).filter(([, it]) => it !== undefined), hash = `#${new URLSearchParams([...Object.entries(texts), ...shown])}`;
  if (hash.length > MOST_LINK) return { fault: "These texts are too long for a link: download them instead." };
  return location.protocol.startsWith("http") ? { link: location.origin + location.pathname + hash } : { link: `kahn.html${hash}`, isPart: true };
}

export function download(name, text, type = "text/plain") {
  const link = document.createElement("a");
  link.href = URL.createObjectURL(new Blob([text], { type }));
  link.download = name;
  link.click();
  setTimeout(() => URL.revokeObjectURL(link.href), 1000);
}

// The texts of files by what they are: the input ends with .input, .txt or .csv.
export async function textsOf(files) {
  const found = {};
  for (const file of files) {
    if (file.size > MOST_FILE) return { fault: `${file.name} is over 16 MB.` };
    try {
      found[/\.(?:input|txt|csv)$/i.test(file.name) ? "input" : "program"] = new TextDecoder("utf-8", { fatal: true }).decode(await file.arrayBuffer());
    } catch {
      return { fault: `${file.name} is not a text (UTF-8).` };
    }
  }
  return found;
}
