// The values of a run as the text of a file: as a table (CSV), or over the events by which they came (VCD).

const allOf = ({ text }) => text.split(" ").slice(1);

// As `kahn_explain --trace` has them: names, numbers, true and false, none of which has a comma or a quotation mark.
export function csvOf(streams) {
  const columns = streams.map(allOf), rows = columns.reduce((most, it) => Math.max(most, it.length), 0);
  const lines = [["place", ...streams.map(({ process, name }) => (process ? `print ${name}` : name))].join(",")];
  for (let i = 0; i < rows; i++) lines.push([i + 1, ...columns.map((it) => it[i] ?? "")].join(","));
  return `${lines.join("\n")}\n`;
}

// The signs from which the short names of a VCD are made.
const FIRST_SIGN = 33, SIGNS_OF_NAMES = 94;

function shortName(number) {
  const sign = String.fromCharCode(FIRST_SIGN + (number % SIGNS_OF_NAMES)), rest = Math.floor(number / SIGNS_OF_NAMES);
  return rest ? shortName(rest - 1) + sign : sign;
}

const bitsOf = (value) => BigInt.asUintN(64, BigInt(value)).toString(2);
const changeTo = (value, isLogical, name) => (isLogical ? `${value === "true" ? 1 : 0}${name}` : `b${bitsOf(value)} ${name}`);

// times: by which event each value came. An event is a nanosecond; a value is unknown until the first one has come.
export function vcdOf(streams, texts, times, events) {
  const names = streams.map((_, i) => shortName(i)), columns = texts.map(allOf), changes = new Map();
  const heads = streams.map(({ name, print, isLogical }, i) => `$var ${isLogical ? "wire 1" : "integer 64"} ${names[i]} ${print === undefined ? "" : "print_"}${name.replaceAll(" ", "_")} $end`);
  times.forEach((each, i) => each.forEach((k, row) => changes.set(k, [...(changes.get(k) ?? []), changeTo(columns[i][row], streams[i].isLogical, names[i])])));
  const unknown = streams.map(({ isLogical }, i) => (isLogical ? `x${names[i]}` : `bx ${names[i]}`));
  const body = [...changes].sort(([a], [b]) => a - b).flatMap(([k, list]) => [`#${k}`, ...list]);
  return ["$version kahn $end", "$timescale 1 ns $end", "$scope module network $end", ...heads, "$upscope $end", "$enddefinitions $end", "#0", "$dumpvars", ...unknown, "$end", ...body,
    ...(changes.has(events) ? [] : [`#${events}`]), ""].join("\n");
}
