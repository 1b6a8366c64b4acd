// Texts in and out: examples, what was replaced, links and files.

import { at, made } from "./elements.js";
import { example, groups, isExample } from "./examples.js";
import { QUANTUM } from "./run.js";
import { runTexts } from "./running.js";
import { showAlone, toast } from "./showing.js";
import { BOUND, input, page, program, store, texts } from "./state.js";
import { carried, clearAddress, download, linkOf, textsOf } from "./store.js";

export function showName() {
  at("caption").textContent = page.name ? "Example" : "Program";
  at("title").textContent = example(page.name)?.heading ?? "your own";
}

let isWarned = false;

export function save() {
  const isKept = store.putTexts({ program: program.text, input: input.text, bound: at("bound").value }, page.name);
  onbeforeunload = isKept || page.name ? null : (event) => event.preventDefault();
  if (!isKept && !isWarned) toast("This browser keeps no texts: download yours.");
  isWarned = !isKept;
}

// name: of the example that they are; wanted: what is shown of their run, if not its end.
export function put({ program: text, input: given, bound }, name, wanted) {
  const old = { program: program.text, input: input.text, bound: at("bound").value, name: page.name }, isOwn = old.program.trim() !== "" && !isExample(old);
  if (isOwn && !store.isKept && !confirm("This browser keeps no texts. Replace yours?")) return;
  if (isOwn) store.keep({ program: old.program, input: old.input, bound: old.bound });
  const { activeElement } = document;
  // (the program last: it is what the browser's Undo brings back first)
  input.replace(given);
  program.replace(text);
  at("bound").value = bound ?? BOUND;
  Object.assign(page, { name, isOther: true, wanted });
  showName();
  clearAddress();
  save();
  at("programPane").scrollTop = 0;
  (activeElement === document.body ? at("examples") : activeElement).focus({ preventScroll: true });
  if (isOwn) toast(store.isKept ? "Your texts were replaced, and kept." : "Your texts were replaced.", "Undo", () => put(old, old.name));
  runTexts();
}

// In three columns, and of those that are kept the newest first.
export function gallery() {
  const item = (title, words, isCurrent, act) => {
    const press = () => { at("gallery").close(); act(); };
    return made("button", { className: "item", "aria-current": isCurrent, onclick: press }, made("b", {}, title), made("span", {}, words));
  };
  const section = (title, items) => made("section", {}, made("h2", {}, title), ...items);
  const itemOf = (it) => item(it.heading, it.words, page.name === it.name, () => put(it, it.name));
  const sections = groups().map(({ title, list }) => section(title, list.map(itemOf)));
  const when = (it) => new Date(it.when).toLocaleString("en", { dateStyle: "medium", timeStyle: "short" });
  const yours = store.state.yours.map((it) => item(when(it), it.program.trim().replace(/\s+/g, " ").slice(0, 60), false, () => put(it, "")));
  if (yours.length) sections.push(section("Yours, kept in this browser", yours));
  const close = made("form", { method: "dialog" }, made("button", {}, "Close"));
  at("gallery").replaceChildren(close, made("h1", {}, "Examples"), made("div", { className: "groups" }, ...sections));
  at("gallery").showModal();
}

// What is shown of the run, as far as it isn't what a run shows by itself.
export function viewOf() {
  const { run, k, chosen, tab, turns, isAlone, moment, isOld } = page;
  if (!moment || isOld) return {};
  return {
    step: k < run.last ? k : undefined, turns: run.canTurn && turns !== QUANTUM ? turns : undefined, tab: tab === "table" ? undefined : tab,
    process: run.wiring.processes[chosen.process]?.number, channel: run.wiring.channels[chosen.channel]?.name, view: isAlone ? "picture" : undefined,
  };
}

// Texts that a link carries come in place of those that are there.
export function openLink(hash) {
  const linked = carried(hash);
  if (!linked) return;
  showAlone(linked.view.isAlone);
  put({ program: linked.program, input: linked.input, bound: linked.bound }, "", linked.view);
}

export async function copyLink() {
  const { link, isPart, fault } = linkOf(texts(), viewOf());
  if (fault) {
    toast(fault);
    return;
  }
  try {
    await navigator.clipboard.writeText(link);
    toast(isPart ? "Copied. This page is a file: whoever has it too puts this behind its folder." : "Link copied.");
  } catch {
    history.replaceState(null, "", `#${link.split("#")[1]}`);
    toast("The link is in the address bar.");
  }
}

export async function opened(files) {
  const { program: text, input: given, fault } = await textsOf(files);
  if (fault) toast(fault);
  else put({ program: text ?? program.text, input: given ?? (text === undefined ? input.text : ""), bound: at("bound").value }, "");
}

export function downloadTexts() {
  const name = page.name || "network";
  download(`${name}.kahn`, program.text);
  if (input.text.trim()) setTimeout(() => download(`${name}.input`, input.text), 300);
}
