// A lesson of six steps: each shows an example at one of its events, and asks for something to do.

import { at, made, refill } from "./elements.js";
import { example } from "./examples.js";
import { put } from "./texts.js";

const LESSON = [
  ["A process and a channel", "squares", { step: 6, tab: "table" },
    "Two processes run here. The first one sends numbers on the channel NUMBERS, and the second one takes them. Press the right arrow: each press is one event. Blue values wait to be taken."],
  ["Waiting", "squares", { step: 13, tab: "diagram", process: 2 },
    "A process that waits on an empty channel stops until a value comes. It can't test whether a value is there. In the diagram each row is a process, and each arrow leads from the event that sends a value to the event that takes it."],
  ["Any order, the same values", "rates", { tab: "table" },
    "It isn't fixed which process goes first. Choose other turns, at the right below the picture. Then press Other orders, above the picture. Each run has another order of events, but each channel always has the same values."],
  ["Feedback", "hamming", { step: 200, tab: "plots" },
    "A channel may lead back. This network makes all numbers without a prime factor over 5, in order. The first process sends the first 1. Without it no process could begin."],
  ["Deadlock", "control", { tab: "waits" },
    "If nobody sends the first value, all wait on one another. The red processes wait in a cycle. Fix the program: let one of them send a value before it waits."],
  ["Growing values", "sieve", { step: 60, tab: "table" },
    "From step to step a channel only gets more values. A longer run never takes a value back, so each value is right as soon as it is there. Now write a program of your own."],
];

let lessonStep;

function goToStep(step) {
  const [, name, view] = LESSON[(lessonStep = step)];
  put(example(name), name, view);
  showLesson();
}

function endLesson() {
  lessonStep = undefined;
  showLesson();
}

// The words of the step, below the verdict; or nothing if there is no lesson.
function showLesson() {
  at("lesson").hidden = lessonStep === undefined;
  if (lessonStep === undefined) return;
  const [title, , , words] = LESSON[lessonStep], button = (label, to, isOff) => made("button", { disabled: isOff, onclick: () => goToStep(to) }, label);
  const heading = made("p", {}, made("b", {}, `${lessonStep + 1} of ${LESSON.length}: ${title}. `), words);
  refill(at("lesson"), heading, made("span", { className: "steps" }, button("Back", lessonStep - 1, lessonStep === 0), button("Next", lessonStep + 1, lessonStep === LESSON.length - 1)),
    made("button", { className: "close", "aria-label": "End the lesson", onclick: endLesson }, "×"));
}

export function beginLesson() {
  at("sheet").close();
  goToStep(0);
}
