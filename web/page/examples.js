// The examples in groups, each with a title and what it shows.

const GROUPS = [
  ["First steps", [
    ["count", "Count", "one process, three values"],
    ["squares", "Squares", "a producer and a consumer"],
    ["double", "Double", "the values of an input"],
    ["filter", "Filter", "values that pass a test, and the tests"],
    ["pipeline", "Pipeline", "three stages, one behind the other"],
  ]],
  ["Feedback and rings", [
    ["sample", "Kahn's network", "of his paper of 1974; never ends"],
    ["sample-four-turns", "Kahn's network, four turns", "the same, ended by its first process"],
    ["fibonacci", "Fibonacci", "a ring that ends with an overflow"],
    ["hamming", "Hamming numbers", "three factors, merged in order"],
    ["sieve", "Sieve", "primes by four filters"],
  ]],
  ["Signals", [
    ["moving-average", "Moving average", "of the last three values"],
    ["impulse-response", "Impulse response", "a filter of four taps"],
    ["rates", "Three rates", "half the values, then three for two"],
    ["alarm", "Alarm", "too hot, and cool again"],
    ["control", "Control loop", "no first value: a deadlock"],
    ["fahrenheit", "Fahrenheit", "tenths of degrees, rounded"],
    ["noise", "Noise", "a generator; never ends"],
    ["table", "Table", "a sine from eight values"],
  ]],
  ["Data", [
    ["merge", "Merge", "two ordered streams become one"],
    ["merge-ended", "Merge to the end", "the same, with end marks"],
    ["join", "Join", "two tables by their keys"],
    ["histogram", "Histogram", "how many values in each bin"],
    ["sorting", "Sorting network", "five comparators on four lines"],
    ["matrix-product", "Matrix product", "a systolic array of four cells"],
    ["bits", "Bits", "the exclusive or of two numbers"],
  ]],
  ["Protocols and buffers", [
    ["buffer", "Bounded buffer", "credits keep it at three values"],
    ["small-buffer", "Buffer that may be too small", "with less room it is a deadlock"],
    ["alternating-bit", "Alternating bit", "a protocol over lines that lose"],
    ["go-back-n", "Go-back-N", "the same with a window of frames"],
    ["farm", "Farm", "work dealt out to three and collected"],
  ]],
];

// The groups of the examples that are there; those without a title come last.
export function groups() {
  const there = new Map(EXAMPLES.map(([name, program, input]) => [name, { name, program, input }]));
  const titled = new Set(GROUPS.flatMap(([, list]) => list.map(([name]) => name)));
  const others = EXAMPLES.flatMap(([name]) => (titled.has(name) ? [] : [[name, name.replaceAll("-", " "), ""]]));
  return [...GROUPS, ["More", others]].map(([title, list]) => ({
    title, list: list.flatMap(([name, heading, words]) => (there.has(name) ? [{ ...there.get(name), heading, words }] : [])),
  })).filter((it) => it.list.length);
}

const all = groups().flatMap((it) => it.list);

export const example = (name) => all.find((it) => it.name === name);
const exampleOf = ({ program, input }) => all.find((it) => it.program === program && it.input === input);
export const isExample = (texts) => exampleOf(texts) !== undefined;
export const nameOf = (texts) => exampleOf(texts)?.name ?? "";
export const FIRST = example("squares") ?? all[0];
