// Where the boxes and arrows of a network are: columns from the inputs to the outputs, in one row; downwards in a narrow window. An arrow has
// its name beside a flat piece at the right of a box, and bends between the columns. One that leads back runs from the left of its writer to
// the right of its reader. Inputs and outputs are stubs at their boxes. A chain that is too long is cut into rows.

import { layered } from "./layers.js";

export const LETTER = 7.25, MOST_SCALE = 1.3;
// The scale at which all letters can still be read, and at which they are as large as elsewhere.
export const READABLE = 0.66;
const GOOD = 0.83;
const SIDE = 14, BEND = 30, MOST_BEND = 110, LEAD = 11, TRAIL = 7, FLOOR = 30, TURN = 8, NARROW = 520;
// The least room between two boxes, between a box and a point of an arrow, and between two points, which have the room of a line.
const BETWEEN = [20, 12, 8], LINE = 6, HEAVY = 8, SWEEPS = 12;
// So many letters of what waits on an arrow are shown beside it, or fewer; and in so many rows a chain is tried.
const SHOWN = 10, LESS_SHOWN = 7, ROWS = [2, 3, 4, 5, 6, 8, 11, 15, 20];
// The room at the side of a box of an arrow with its name, or without; that of a name along the arrow, and of the word of a stub; and where in its
// room an arrow is.
const RIGHTWARDS = { named: () => 38, plain: 22, name: (label) => label + LEAD + TRAIL, word: 52, port: (room) => room / 2 };
const DOWNWARDS = { named: (label) => label + 14, plain: 20, name: () => 40, word: 20, port: (room, isNamed) => (isNamed ? 6 : room / 2) };

const sum = (numbers) => numbers.reduce((all, it) => all + it, 0);
const most = (numbers) => numbers.reduce((all, it) => Math.max(all, it), 0);

// The boxes and arrows of a wiring in their columns; the sides of each box have what leaves and reaches it there, in order.
function joined({ processes, channels }) {
  const boxes = processes.map((it, i) => ({ ...it, i, left: [], right: [] }));
  const edges = channels.map((it) => ({ number: it.number, name: it.name, from: boxes[it.writer], to: boxes[it.reader] }));
  const inner = edges.filter((it) => it.from && it.to && it.from !== it.to), { columns, crossings } = layered(boxes, inner);
  for (const edge of edges) {
    edge.kind = !edge.from ? "input" : !edge.to ? "output" : edge.from === edge.to ? "loop" : "inner";
    edge.box = edge.kind === "inner" ? edge.low : edge.from ?? edge.to;
    if (edge.kind === "input") edge.to.left.push({ edge, isNamed: true, near: -1 });
    else edge.box.right.push({ edge, isNamed: true, near: { inner: edge.items?.[1].spot, output: -1, loop: Infinity }[edge.kind] });
    if (edge.kind === "inner") edge.high.left.push({ edge, near: edge.items.at(-2).spot });
    if (edge.kind === "loop") edge.box.right.push({ edge, near: Infinity });
  }
  const order = (a, b) => (a.near === b.near ? a.edge.number - b.edge.number : a.near - b.near);
  for (const it of boxes) for (const side of [it.left, it.right]) side.sort(order);
  return { boxes, edges, columns, crossings };
}

// The size of each box, along the arrows and across, and where on its sides each arrow is.
function sized({ boxes, edges }, shown, isDown) {
  const way = isDown ? DOWNWARDS : RIGHTWARDS;
  for (const it of edges) it.label = LETTER * Math.max(it.name.length, shown);
  for (const box of boxes) {
    const title = 7.6 * (box.name.length + String(box.number).length) + (box.prints ? 50 : 32);
    const rooms = [box.left, box.right].map((side) => side.map(({ edge, isNamed }) => (isNamed ? way.named(edge.label) : way.plain)));
    box.width = Math.max(shown < SHOWN ? 104 : 116, title, LETTER * box.values.length + 20, isDown ? most(rooms.map(sum)) : 0);
    box.height = Math.max(box.values ? 62 : 46, isDown ? 0 : most(rooms.map(sum)));
    [box.long, box.wide] = isDown ? [box.height, box.width] : [box.width, box.height];
    [box.left, box.right].forEach((side, i) => {
      let at = -sum(rooms[i]) / 2;
      side.forEach((port, j) => {
        port.at = at + way.port(rooms[i][j], port.isNamed);
        at += rooms[i][j];
      });
    });
  }
}

// How far from the middle of a box, or of a point, an arrow is at this side.
const portOf = (it, edge, side) => (it.isPoint ? 0 : it[side].find((port) => port.edge === edge).at);

// The places across of the items of a column: together as near to those wanted as can be, in order, and none over another one.
function settle(column, wanted) {
  const pools = [], level = ({ all, weight }) => all / weight;
  let least = 0;
  column.forEach((it, i) => {
    const before = column[i - 1], weight = it.isPoint ? HEAVY : 1;
    if (before) least += BETWEEN[(before.isPoint ? 1 : 0) + (it.isPoint ? 1 : 0)] + (before.wide + it.wide) / 2;
    it.least = least;
    pools.push({ all: (wanted[i] - least) * weight, weight, items: [it] });
    while (pools.length > 1 && level(pools.at(-2)) >= level(pools.at(-1))) {
      const last = pools.pop(), into = pools.at(-1);
      Object.assign(into, { all: into.all + last.all, weight: into.weight + last.weight });
      into.items.push(...last.items);
    }
  });
  for (const pool of pools) for (const it of pool.items) it.level = level(pool) + it.least;
}

// Puts all items across, so that arrows are as straight as can be.
function levelled({ edges, columns }) {
  columns.flat().forEach((it) => Object.assign(it, { before: [], behind: [], wide: it.isPoint ? LINE : it.wide }));
  for (const edge of edges.filter((it) => it.kind === "inner")) {
    edge.items.slice(1).forEach((high, i) => {
      const low = edge.items[i], shift = portOf(high, edge, "left") - portOf(low, edge, "right");
      low.behind.push({ other: high, shift });
      high.before.push({ other: low, shift: -shift });
    });
  }
  columns.forEach((column) => settle(column, column.map(() => 0)));
  const wanted = (it, near) => (near.length ? sum(near.map(({ other, shift }) => other.level + shift)) / near.length : it.level);
  for (let round = 0; round < SWEEPS; round++) {
    const isLast = round >= SWEEPS - 2;
    for (const column of round % 2 ? [...columns].reverse() : columns) {
      settle(column, column.map((it) => {
        const near = isLast ? [] : round % 2 ? it.behind : it.before;
        return wanted(it, near.length ? near : [...it.before, ...it.behind]);
      }));
    }
  }
}

// How far across an arrow goes between a column and the next one.
function jumpOf(edge, rank) {
  const [low, high] = [rank, rank + 1].map((it) => edge.items[it - edge.low.rank]);
  return Math.abs(low.level + portOf(low, edge, "right") - high.level - portOf(high, edge, "left"));
}

const passes = (it, rank) => it.kind === "inner" && it.low.rank <= rank && it.high.rank > rank;

// The room along the arrows of each column: of its boxes, of what is before them, and of names, words and bends behind them.
function roomsOf({ boxes, edges, columns }, isDown) {
  const way = isDown ? DOWNWARDS : RIGHTWARDS;
  return columns.map((_, rank) => {
    const here = boxes.filter((it) => it.rank === rank), right = here.flatMap((it) => it.right), passing = edges.filter((it) => passes(it, rank));
    const given = here.flatMap((it) => it.left).filter((it) => it.edge.kind === "input").map((it) => it.edge.label);
    const isCut = passing.length === 1 && !passing[0].isBack, bend = Math.min(MOST_BEND, BEND + most(passing.map((it) => jumpOf(it, rank))) / 8);
    return {
      isCut, own: most(here.map((it) => it.long)), before: most(given.map((it) => way.name(it) + TRAIL + way.word)),
      names: most(right.map((it) => way.name(it.edge.label))), words: right.some((it) => it.edge.kind !== "inner") ? way.word : 0,
      bend: rank + 1 < columns.length ? bend : 0,
    };
  });
}

const lengthOf = ({ before, own, names, words, bend }) => before + own + names + words + bend;

// The columns in rows of at most this length, as far as there are cuts: each where one arrow passes that doesn't lead back.
function rowsOf(rooms, length) {
  const rows = [[]];
  let part = [];
  rooms.forEach((room, rank) => {
    part.push(rank);
    if (!room.isCut && rank + 1 < rooms.length) return;
    const last = rows.at(-1), used = sum([...last, ...part].map((it) => lengthOf(rooms[it])));
    if (last.length && used > length) rows.push(part);
    else last.push(...part);
    part = [];
  });
  return rows;
}

// Where the columns are along the arrows, and the rows below one another. Gives the size of the whole.
function placed({ columns }, rooms, rows) {
  const isCut = rows.length > 1;
  let floor = 10, longest = 0;
  rows.forEach((ranks, row) => {
    const items = ranks.flatMap((rank) => columns[rank]), top = items.reduce((least, it) => Math.min(least, it.level - it.wide / 2), Infinity);
    items.forEach((it) => (it.across = it.level + floor - top));
    floor = most(items.map((it) => it.across + it.wide / 2)) + 12;
    let along = SIDE + (isCut ? 16 : 0);
    ranks.forEach((rank, i) => {
      const room = Object.assign(rooms[rank], { row, floor, start: along, at: along + rooms[rank].before });
      columns[rank].forEach((it) => (it.along = room.at + room.own / 2));
      room.bendFrom = room.at + room.own + room.names + room.words;
      along = room.bendTo = room.bendFrom + (i + 1 < ranks.length ? room.bend : 0);
    });
    longest = Math.max(longest, along + SIDE + (isCut ? 18 : 0));
    if (row + 1 < rows.length) floor += FLOOR;
  });
  return [longest, floor];
}

// A path along straight pieces, round at their corners.
function rounded(points) {
  const towards = ([px, py], [tx, ty]) => {
    const length = Math.hypot(tx - px, ty - py) || 1, part = Math.min(TURN, length / 2) / length;
    return `${px + (tx - px) * part} ${py + (ty - py) * part}`;
  };
  const turned = (it, before, next) => (next ? `L${towards(it, before)}Q${it.join(" ")} ${towards(it, next)}` : `L${it.join(" ")}`);
  return points.slice(1).map((it, i) => turned(it, points[i], points[i + 2])).join("");
}

const spotOf = (along, across, isDown) => (isDown ? `${across} ${along}` : `${along} ${across}`);

// The path through points that are, by turns, at the ends of flat pieces and of bends.
function bent(points, isDown) {
  return points.slice(1).reduce((path, [along, across], i) => {
    const [from, before] = points[i], part = 0.6 * (along - from), to = spotOf(along, across, isDown);
    if (i % 2 === 0 || before === across) return `${path}L${to}`;
    return `${path}C${spotOf(from + part, before, isDown)} ${spotOf(along - part, across, isDown)} ${to}`;
  }, `M${spotOf(...points[0], isDown)}`);
}

// An arrow between two boxes; its head is at the other box, or at the lower one if it leads back. From row to row it runs in a lane.
function innerPath(edge, rooms, isDown) {
  const { low, high, items, isBack } = edge, parts = [];
  let points = [[low.along + low.long / 2 + (isBack ? 1 : 0), low.across + portOf(low, edge, "right")]];
  items.slice(1).forEach((it, i) => {
    const from = rooms[low.rank + i], to = rooms[low.rank + i + 1], [, y] = points.at(-1), next = it.across + portOf(it, edge, "left");
    if (from.row === to.row) {
      points.push([from.bendFrom, y], [from.bendTo, next]);
      return;
    }
    const side = SIDE / 2, turn = from.bendFrom + 8, lane = from.floor + FLOOR / 2 - 8;
    const way = [[from.bendFrom, y], [turn, y], [turn, lane], [side, lane], [side, next], [to.start, next]];
    parts.push(bent([...points, way[0]], isDown), rounded(way));
    points = [way.at(-1)];
  });
  points.push([high.along - high.long / 2 - (isBack ? 0 : 1), points.at(-1)[1]]);
  const last = bent(isBack ? points.reverse() : points, isDown);
  return parts.length ? parts.join("").replace(/(?!^)M/g, "L") + last.replace("M", "L") : last;
}

// From a box to itself.
function loopPath({ box, edge, y }, start, end, isDown) {
  const [from, to] = box.right.filter((it) => it.edge === edge).map((it) => it.at), back = y + to - from;
  const bend = [spotOf(end + 18, y, isDown), spotOf(end + 18, back, isDown), spotOf(end, back, isDown)].join(" ");
  return `M${spotOf(start, y, isDown)}L${spotOf(end, y, isDown)}C${bend}L${spotOf(start + 1, back, isDown)}`;
}

// The path of each arrow, where its name and its values are, and the word of a stub.
function routed({ edges }, rooms, isDown) {
  const way = isDown ? DOWNWARDS : RIGHTWARDS;
  for (const edge of edges) {
    const { box, kind } = edge, isInput = kind === "input", y = box.across + portOf(box, edge, isInput ? "left" : "right");
    const length = way.name(edge.label) + (isInput ? TRAIL : 0), start = isInput ? box.along - box.long / 2 - 1 - length : box.along + box.long / 2, end = start + length;
    if (kind === "inner") edge.path = innerPath(edge, rooms, isDown);
    else edge.path = kind === "loop" ? loopPath({ box, edge, y }, start, end, isDown) : bent([[start, y], [end, y]], isDown);
    edge.word = kind === "inner" || kind === "loop" ? "" : kind;
    const half = (LETTER * edge.word.length) / 2, right = [isInput ? start - 6 - half : end + 6 + half, y + 4], down = [y, isInput ? start - 5 : end + 14];
    if (isDown) Object.assign(edge, { nameAt: [y + 6, start + 15], valuesAt: [y + 6, start + 29], wordAt: down });
    else Object.assign(edge, { nameAt: [start + LEAD, y - 6], valuesAt: [start + LEAD, y + 14], wordAt: right });
  }
}

const networks = new WeakMap();

// The layout in which the network is largest: in one row if that can be read, and else in some rows, if there are cuts; in a narrow window
// downwards, if its width can be read then.
export function fitted(wiring, width, height) {
  if (!networks.has(wiring)) networks.set(wiring, joined(wiring));
  const network = networks.get(wiring), down = { shown: LESS_SHOWN, isDown: true };
  const ways = [{ shown: SHOWN }, { shown: LESS_SHOWN }, ...(width < NARROW ? [down] : [])];
  let best, now;
  const tried = (way, length = Infinity) => {
    if (now?.way !== way) {
      sized(network, way.shown, way.isDown);
      levelled(network);
      now = { way, rooms: roomsOf(network, way.isDown) };
    }
    const rows = rowsOf(now.rooms, length), [long, wide] = placed(network, now.rooms, rows), size = way.isDown ? [wide, long] : [long, wide];
    const scale = Math.min(MOST_SCALE, width / size[0], height / size[1]);
    if (!best || scale > best.scale * 1.02) best = { way, length, scale };
    return { rows, width: size[0], height: size[1], long };
  };
  for (const way of ways) if (!best || best.scale < GOOD) tried(way);
  if (best.scale < READABLE) {
    const { long } = tried(ways[1]);
    if (now.rooms.some((it) => it.isCut)) for (const count of ROWS) tried(ways[1], long / count);
  }
  if (best.scale < READABLE && width < NARROW && tried(down).width * READABLE <= width) best = { way: down };
  const laid = tried(best.way, best.length), { isDown = false, shown } = best.way;
  routed(network, now.rooms, isDown);
  for (const it of network.boxes) [it.x, it.y] = isDown ? [it.across, it.along] : [it.along, it.across];
  return { ...network, ...laid, isDown, shown };
}
