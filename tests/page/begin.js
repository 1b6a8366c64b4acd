// What the sessions here, and tests/web.py, call in the page. `programs` has the texts of the programs here by their names.
Object.assign(globalThis, {
  // Waits until a test holds.
  async until(test) {
    const end = performance.now() + 40000;
    while (!test()) {
      if (performance.now() > end) throw new Error(`waited for ${test}`);
      await new Promise((done) => setTimeout(done, 20));
    }
  },
  settled: () => !document.body.classList.contains("busy") && !!page.moment && !page.isOld,

  // Texts that replace those of the page, by their run.
  begins(program, { input = "", bound = "1000000", name = "" } = {}) {
    page.moment = undefined;
    at("verdict").className = "";
    put({ program, input, bound }, name);
  },
  async puts(program, more) {
    begins(program, more);
    await until(() => settled() || at("verdict").className === "refused");
  },
  async shows(name) {
    begins(example(name).program, { ...example(name), name });
    await until(settled);
  },

  isShown: (selector) => document.querySelector(selector).checkVisibility(),
  told: () => [at("verdict").className, at("status").textContent],
  eachText: (selector) => [...document.querySelectorAll(selector)].map((it) => it.textContent),

  // A network of so many processes, one behind the other.
  rowOf(length) {
    const names = Array.from({ length: length - 1 }, (_, i) => `C${i + 1}`);
    const middle = names.slice(1).map((it, i) => ` par add(${names[i]}, ${it}, ${i + 2})`).join("");
    return `begin integer channel ${names.join(", ")}; integer output channel LAST;
  process count(integer out W; integer N); begin integer I; while I < N do begin send I on W; I := I + 1 end end;
  process add(integer in U; integer out W; integer N); begin repeat send wait(U) + N on W end;
  count(C1, 5)${middle} par add(${names.at(-1)}, LAST, 0)
end
`;
  },

  // Whether a cell of the table is in sight: below the head, right of the places.
  isInSight(cell) {
    const pane = at("table"), it = cell.getBoundingClientRect(), room = pane.getBoundingClientRect(), corner = pane.querySelector("th").getBoundingClientRect();
    return it.left >= corner.right - 1 && it.right <= room.left + pane.clientWidth + 1 && it.top >= corner.bottom - 1 && it.bottom <= room.top + pane.clientHeight + 1;
  },
  // The steps at which the value that came or went isn't in sight.
  async unseen() {
    const found = [], { last } = page.run;
    for (let k = 1; k <= last; k += Math.ceil(last / 150)) {
      await go(k);
      const cell = document.querySelector("#table .newest, #table .took");
      if (page.moment.event?.stream >= 0 && !(cell && isInSight(cell))) found.push(k);
    }
    return found;
  },

  // What is done by each event of what is chosen, and by whom: from the start on, or from the end back.
  async ownEvents(isNext) {
    const found = [];
    await go(isNext ? 0 : Infinity);
    for (let k = -1; k !== page.k; ) {
      k = page.k;
      await goToOwn(isNext);
      if (k !== page.k) found.push([page.moment.event.words, page.moment.mover]);
    }
    at("toast").replaceChildren();
    return found;
  },
  // The lines whose events, by runs to them, aren't those that the steps name.
  async linesOfEvents() {
    const { run } = page, byLine = new Map(), wrong = [], { text } = program;
    for (let k = 1; k <= run.steps; k++) {
      const { event } = await run.momentAt(k);
      for (const it of new Set(event.places.map(({ from }) => placeAt(text, from).line))) byLine.set(it, [...(byLine.get(it) ?? []), k]);
    }
    for (const [line, events] of byLine) {
      const from = indexAt(text, line, 1), gauge = ofPlaces(run, from, text.indexOf("\n", from)), found = [];
      for (let k = await run.timeline.nextOf(gauge, 0); k !== undefined; k = await run.timeline.nextOf(gauge, k)) found.push(k);
      const back = [];
      for (let k = await run.timeline.previousOf(gauge, run.last + 1); k !== undefined; k = await run.timeline.previousOf(gauge, k)) back.unshift(k);
      if (String(found) !== String(events) || String(back) !== String(events)) wrong.push([line, String(events), String(found), String(back)]);
    }
    return wrong;
  },

  // A network of so many boxes by chance: to each leads one of the six before it, and to each second one of the three before it; some lead back.
  byChance(count, seed) {
    let at = seed * 7919 + 13;
    const pick = (most) => Math.floor(((at = (at * 48271) % 2147483647) / 2147483647) * most), ends = [];
    for (let i = 1; i < count; i++) {
      ends.push([Math.max(0, i - 1 - pick(6)), i]);
      if (pick(2) < 1) ends.push([Math.max(0, i - 1 - pick(3)), i]);
    }
    for (let i = Math.max(1, Math.round(count / 40)); i > 0; i--) {
      const from = pick(count);
      ends.push([from, Math.max(0, from - pick(6))]);
    }
    return wired(count, ends.filter(([from, to]) => from !== to));
  },
  // A grid of cells, each with an arrow to the next one in its row and in its column, with a source before each row and column.
  grid(side) {
    const ends = [], cell = (row, column) => row * side + column;
    for (let row = 0; row < side; row++) {
      for (let column = 0; column < side; column++) {
        if (column + 1 < side) ends.push([cell(row, column), cell(row, column + 1)]);
        if (row + 1 < side) ends.push([cell(row, column), cell(row + 1, column)]);
      }
    }
    for (let i = 0; i < side; i++) ends.push([side * side + i, cell(i, 0)], [side * side + side + i, cell(0, i)]);
    return wired(side * side + 2 * side, ends);
  },
  wired: (count, ends) => ({
    processes: Array.from({ length: count }, (_, i) => ({ number: i + 1, name: `p${i}`, values: "" })),
    channels: ends.map(([writer, reader], number) => ({ number, name: `E${number}`, writer, reader })),
  }),
  // How many arrows of a wiring cross, as its module counts them; or that they cross otherwise along the drawn paths.
  crossingsOf(wiring) {
    const { crossings, edges } = fitted(wiring, 820, 400), drawn = crossingsAlong(edges.map((it) => it.path));
    return drawn === crossings ? crossings : `${crossings} counted, ${drawn} drawn`;
  },
  crossingsAlong(paths) {
    const lines = paths.map(pointsOf);
    let count = 0;
    lines.forEach((some, i) => lines.slice(0, i).forEach((others) => {
      for (let a = 1; a < some.length; a++) for (let b = 1; b < others.length; b++) if (doCross(some[a - 1], some[a], others[b - 1], others[b])) count += 1;
    }));
    return count;
  },
  // Points along a path of straight lines and bends.
  pointsOf(path) {
    const points = [];
    for (const [, kind, words] of path.matchAll(/([MLCQ])([^MLCQ]*)/g)) {
      const numbers = words.trim().split(/\s+/).map(Number), ends = [points.at(-1)], steps = { M: 1, L: 1, Q: 6, C: 16 }[kind];
      for (let i = 0; i < numbers.length; i += 2) ends.push(numbers.slice(i, i + 2));
      if (kind === "M") points.push(ends[1]);
      else for (let step = 1; step <= steps; step++) points.push(along(ends, step / steps));
    }
    return points;
  },
  along: (ends, part) => (ends.length === 1 ? ends[0]
    : along(ends.slice(1).map(([x, y], i) => [ends[i][0] + (x - ends[i][0]) * part, ends[i][1] + (y - ends[i][1]) * part]), part)),
  doCross(a, b, c, d) {
    if (Math.max(a[0], b[0]) < Math.min(c[0], d[0]) || Math.max(c[0], d[0]) < Math.min(a[0], b[0])) return false;
    const side = (p, q, r) => { const it = (q[0] - p[0]) * (r[1] - p[1]) - (q[1] - p[1]) * (r[0] - p[0]); return Math.abs(it) < 1e-9 ? 0 : Math.sign(it); };
    return side(a, b, c) * side(a, b, d) < 0 && side(c, d, a) * side(c, d, b) < 0;
  },
  // The examples in which arrows cross, and how many.
  async allCrossings() {
    const found = {};
    for (const { name, program, input } of groups().flatMap((it) => it.list)) {
      const { wiring } = await checked(checker, { program, input, bound: "0" }), count = crossingsOf(wiring);
      if (count) found[name] = count;
    }
    return found;
  },
  dispatchKey: (key) => document.body.dispatchEvent(new KeyboardEvent("keydown", { key, bubbles: true })),
  drags(element, dx, dy) {
    const { left, top, width, height } = element.getBoundingClientRect(), x = left + width / 2, y = top + height / 2;
    const told = (type, by) => element.dispatchEvent(new PointerEvent(type, { clientX: x + by * dx, clientY: y + by * dy, pointerId: 1, bubbles: true }));
    element.setPointerCapture = () => {};
    told("pointerdown", 0);
    told("pointermove", 0.5);
    told("pointermove", 1);
    told("pointerup", 1);
    element.querySelector(".box").dispatchEvent(new MouseEvent("click", { bubbles: true }));
  },
  wheels: (element, deltaY) => element.dispatchEvent(new WheelEvent("wheel", { deltaY, ctrlKey: true, bubbles: true, cancelable: true })),
  // Whether the box of a process is in sight.
  sights(i) {
    const it = picture.boxes[i].group.querySelector(".frame").getBoundingClientRect(), room = at("picture").getBoundingClientRect();
    return it.left >= room.left - 1 && it.right <= room.right + 1 && it.top >= room.top - 1 && it.bottom <= room.bottom + 1;
  },
  // Milliseconds of a step, the median of nine; and from a text to its picture, the least of three.
  async stepTime() {
    const times = [];
    await go(20);
    for (let k = 21; k < 30; k++) {
      const start = performance.now();
      await go(k);
      await new Promise((done) => requestAnimationFrame(() => setTimeout(done)));
      times.push(performance.now() - start);
    }
    return times.sort((a, b) => a - b)[4];
  },
  async pictureTime() {
    const times = [], { program: text } = page.run.texts;
    for (let i = 0; i < 3; i++) {
      const start = performance.now();
      await puts(`${text}${" ".repeat(i + 1)}`);
      await new Promise((done) => requestAnimationFrame(() => setTimeout(done)));
      times.push(performance.now() - start);
    }
    return Math.min(...times);
  },
  // Whether the machine is so full of work that no time can be judged: a fixed piece of work takes more than twice as long as on a quiet one.
  isBusy() {
    const start = performance.now();
    let sum = 0;
    for (let i = 0; i < 2e7; i++) sum = (sum + i * i) % 1000003;
    return performance.now() - start > 400 + 0 * sum;
  },

  // How often `--` stands in what the page says of itself; a program and a report may have it.
  options: () => (document.querySelector("#verdict").innerText + at("problems").innerText + at("waits").innerText + at("network").innerText).split("--").length - 1,
  // Whether no arrow reaches out of the picture.
  arrowsFit: () => [...document.querySelectorAll("#picture .line")].map((it) => it.getBBox())
    .every(({ x, y, width, height }) => x >= 0 && y >= 0 && x + width <= picture.laid.width && y + height <= picture.laid.height),
  pictureFits: () => picture.view.isWhole && picture.laid.width * picture.scale <= at("picture").clientWidth && picture.laid.height * picture.scale <= at("picture").clientHeight,
  // Whether the picture is in sight from its left to its right, and its names can be read.
  isAcross: () => picture.laid.width * picture.scale <= at("picture").clientWidth,
  lettersAreShown: () => 12 * picture.scale >= 6 && !picture.svg.classList.contains("numbers"),
  // What of the page is below an element that is in sight.
  covers(selector) {
    const here = document.querySelector(selector), { left, top, right, bottom } = here.getBoundingClientRect();
    const below = [[left + 5, top + 5], [right - 5, bottom - 5]].flatMap(([x, y]) => document.elementsFromPoint(x, y));
    return [...new Set(below)].filter((it) => !it.contains(here) && !here.contains(it)).map((it) => it.id || it.tagName);
  },
  // Letters of eight pixels or more, and none is left out.
  lettersAreLarge: () => picture.svg.classList.contains("all") && 12 * picture.scale >= 7.9,
  // Buttons that reach out of the window.
  cut: () => [...document.querySelectorAll("header button, #transport button, #panes button, .strip button")].filter((it) => it.checkVisibility())
    .map((it) => [it.id || it.textContent, (it.scrollIntoView({ block: "nearest" }), it.getBoundingClientRect())])
    .filter(([, { left, right, top, bottom }]) => left < 0 || right > innerWidth + 0.5 || top < 0 || bottom > innerHeight + 0.5)
    .map(([name]) => name),

  // What scrolls or is cut off in any pane and any tab of the window, and whether the picture fits with letters that are large.
  async unfit() {
    const found = [], pause = () => new Promise((done) => setTimeout(done, 150));
    for (const pane of ["texts", "network", "values"]) {
      show(pane);
      await pause();
      if (document.documentElement.scrollWidth !== innerWidth || document.body.scrollHeight !== innerHeight) found.push(`${pane} scrolls`);
      if (pane === "network" && !(isAcross() && lettersAreShown())) found.push("the picture or its letters");
    }
    for (const tab of ["plots", "diagram", "waits", "report", "table"]) {
      showTab(tab);
      await pause();
      if (document.documentElement.scrollWidth !== innerWidth) found.push(`${tab} scrolls`);
      found.push(...cut().map((it) => `${it} beside ${tab}`));
    }
    show("network");
    return found;
  },

  // What has less contrast than is wanted: texts on their grounds, and borders, handles and lines. A text in an inactive button needs none.
  faint() {
    const TEXT = 4.5, SHAPE = 3;
    const canvas = document.createElement("canvas").getContext("2d", { willReadFrequently: true });
    const rgba = (colour) => {
      canvas.clearRect(0, 0, 1, 1);
      canvas.fillStyle = colour;
      canvas.fillRect(0, 0, 1, 1);
      const [red, green, blue, alpha] = canvas.getImageData(0, 0, 1, 1).data;
      return [red, green, blue, alpha / 255];
    };
    const over = ([...front], back) => [0, 1, 2].map((i) => front[i] * front[3] + back[i] * (1 - front[3])).concat(1);
    const part = (it) => (it / 255 <= 0.04045 ? it / 255 / 12.92 : ((it / 255 + 0.055) / 1.055) ** 2.4);
    const light = ([red, green, blue]) => 0.2126 * part(red) + 0.7152 * part(green) + 0.0722 * part(blue);
    const ratio = (a, b) => (Math.max(light(a), light(b)) + 0.05) / (Math.min(light(a), light(b)) + 0.05);

    // What lies below an element.
    const groundOf = (element) => {
      const colours = [];
      for (let it = element; it; it = it.parentElement) {
        const colour = rgba(getComputedStyle(it).backgroundColor);
        if (colour[3] > 0) colours.push(colour);
        if (colour[3] === 1) break;
      }
      return colours.reduceRight((below, it) => over(it, below), rgba(getComputedStyle(document.body).backgroundColor));
    };
    const isSeen = (it) => it.checkVisibility({ checkOpacity: true, checkVisibilityCSS: true }) && it.getBoundingClientRect().width > 1
      && !it.closest(".unseen, :disabled, .old");
    const opacityOf = (it) => (it ? Number(getComputedStyle(it).opacity) * opacityOf(it.parentElement) : 1);
    const hasWords = (it) => [...it.childNodes].some((one) => one.nodeType === Node.TEXT_NODE && one.textContent.trim());
    const nameOf = (it) => `${it.tagName}#${it.id}.${it.getAttribute("class")} in ${it.parentElement.id || it.parentElement.getAttribute("class")}`;
    const all = (selector) => [...document.querySelectorAll(selector)].filter(isSeen);

    const low = new Set();
    let count = 0;
    const measure = (it, colour, back, wanted, opacity = 1) => {
      const front = rgba(colour), found = ratio(over([...front.slice(0, 3), front[3] * opacity], back), back);
      if (found < wanted) low.add(`${nameOf(it)}: ${found.toFixed(2)}`);
      count += 1;
    };
    // A text of a picture lies on its box, or beside all.
    const pictured = (it) => {
      const below = it.closest(".box")?.querySelector(".frame");
      return below ? rgba(getComputedStyle(below).fill) : groundOf(it.closest("div"));
    };

    for (const it of all("body *:not(svg, svg *, textarea, script, style, noscript, noscript *)").filter(hasWords)) {
      measure(it, getComputedStyle(it).color, groundOf(it), TEXT, opacityOf(it));
    }
    for (const it of all("svg text").filter((one) => one.textContent.trim())) measure(it, getComputedStyle(it).fill, pictured(it), TEXT, opacityOf(it));
    for (const it of all("#programInk .line")) {
      const { color, opacity } = getComputedStyle(it, "::before");
      measure(it, color, groundOf(it), TEXT, Number(opacity));
    }
    for (const it of all("#input")) measure(it, getComputedStyle(it, "::placeholder").color, groundOf(it), TEXT);
    for (const it of all("#bound, #examples, #stop, .buttons button, #by, dialog[open] form button")) {
      measure(it, getComputedStyle(it).borderTopColor, groundOf(it.parentElement), SHAPE);
    }
    for (const it of all(".handle")) measure(it, getComputedStyle(it, "::after").backgroundColor, groundOf(it), SHAPE);
    for (const it of all("#picture .frame, #picture .line, #plots .steps")) measure(it, getComputedStyle(it).stroke, groundOf(it.closest("div")), SHAPE);
    return count > 40 ? [...low] : [`${count} are too few`];
  },
  // The same of all that the page shows, each with where that was.
  async allFaint() {
    const found = [], look = (where) => found.push(...faint().map((it) => `${where}: ${it}`));
    for (const it of [programs.deadlock, programs.fault, programs.endless.replace("send I", "send I mod 0"), programs.endless]) {
      await puts(it, { bound: "1000" });
      look(told()[1]);
    }
    await shows("alarm");
    await go(30);
    choose({ process: 0 });
    for (const tab of ["plots", "diagram", "waits", "report", "table"]) {
      showTab(tab);
      look(tab);
    }
    beginLesson();
    await until(settled);
    look("the lesson");
    endLesson();
    for (const open of [gallery, () => at("sheet").showModal(), showOrders]) {
      open();
      look("a dialog");
      document.querySelector("dialog[open]").close();
    }
    await puts(programs.endless.replace("I + 1;", "I + 1"));
    look("a mistake");
    return found;
  },

  // Who did each event and by which event each value came, at 33 bounds, beside the module's reports.
  async orderOf() {
    const { run } = page, { timeline, steps } = run;
    if (!(await run.learnOrder(() => true)) || !(await run.learnTimes(() => true))) return "not known";
    for (let k = 0; k <= steps; k += Math.max(1, steps >> 5)) {
      const report = await run.reportAt(k), counts = report.ends.map((_, i) => timeline.order.slice(0, k).filter((it) => it === i).length);
      if (String(counts) !== String(report.ends.map((it) => it.events))) return `order at ${k}`;
      const came = timeline.times.map((it) => it.filter((at) => at <= k).length);
      if (String(came) !== String(report.streams.map((it, i) => cameOf(run.streams[i], it)))) return `times at ${k}`;
    }
    const row = cameOf(run.streams[0], run.end.streams[0]) - 1;
    return (await run.eventOf(0, row)) === timeline.times[0][row] ? "agrees" : "event of the last value";
  },
  // Whether from each step to the next one process does one event and one number of values goes up by one, or none at a turn of a loop;
  // whether all events add up, no channel has more taken than sent, and all values begin those of the end.
  async flowsOf() {
    const { run } = page, total = (numbers) => numbers.reduce((sum, it) => sum + it, 0), { channels } = run.wiring;
    const numbers = ({ ends, streams }) => [ends.map((it) => it.events), streams.flatMap((it) => [it.count, it.taken ?? 0])];
    let before;
    for (let k = 0; k <= run.steps; k++) {
      const report = await run.reportAt(k), now = numbers(report), { event, streams } = await run.momentAt(k);
      if (total(now[0]) !== k || report.verdict.events !== k) return `events at ${k}`;
      const wrong = report.streams.find((it, i) => it.count < (it.taken ?? 0) || String(it.values) !== String(run.streams[i].values.slice(0, it.count)) || it.values.length !== it.count);
      if (wrong) return `${wrong.name} at ${k}`;
      if (before) {
        const grown = before.map((part, i) => part.flatMap((it, j) => (now[i][j] === it ? [] : [now[i][j] - it])));
        if (String(grown[0]) !== "1" || !["", "1"].includes(String(grown[1])) || (event.kind === "turn") !== (grown[1].length === 0)) return `event ${k}`;
        const { writer, reader } = channels[event.channel] ?? {}, who = now[0].findIndex((it, i) => it !== before[0][i]);
        if ((event.kind === "send" && writer !== who) || (event.kind === "take" && reader !== who)) return `who did event ${k}`;
        if (event.stream >= 0 && !event.words.includes(` ${run.streams[event.stream].values[event.row]}`)) return `words of event ${k}`;
      }
      before = now;
    }
    return "agrees";
  },
  // The events of a whole run as the diagram has them, beside what each step says; and each take beside its send: what differs.
  async lifelinesOf() {
    const { run } = page, { timeline, steps, streams } = run;
    for (const k of openBounds(timeline, 0, steps, 0)) await timeline.learn(k);
    const events = eventsWithin(timeline, 0, steps, streams), wrong = events.length === steps ? [] : [`${events.length} events`];
    for (const { k, who, kind, stream, row } of events) {
      const { mover, event } = await run.momentAt(k);
      if (String([who, kind, stream, row]) !== String([mover, event.kind, event.stream, event.kind === "turn" ? -1 : event.row])) wrong.push(k);
    }
    for (const { stream, row, sent, taken, isLeft } of passages(events, timeline)) {
      const find = (kind) => events.filter((it) => it.kind === kind && it.stream === stream)[row]?.k;
      if (sent !== find("send") || taken !== find("take") || taken <= sent || isLeft !== (taken === undefined && streams[stream].role !== "output" || streams[stream].role === "output")) wrong.push([stream, row]);
    }
    return wrong;
  },
  // Whether the diagram has learnt all that it shows.
  isLearnt: () => page.moment.step === page.k && diagram.moment === page.moment && diagram.events?.length === diagram.high - diagram.first && !at("diagram").querySelector(".unknown"),
  // How many values wait on each channel: what the plots say of the greatest number and of some events, beside the steps.
  async waitingOf() {
    const { run } = page, wrong = [], most = plots.lanes.map(() => 0);
    for (let k = 0; k <= run.steps; k++) {
      const { streams } = await run.reportAt(k);
      plots.lanes.forEach(({ i, parts, greatest }, n) => {
        const count = streams[i].count - streams[i].taken, told = waitingAt(parts, k);
        most[n] = Math.max(most[n], count);
        if (count < told.least || count > told.most || (k === greatest.at && count !== greatest.count)) wrong.push([k, i]);
      });
    }
    plots.lanes.forEach(({ greatest: { count, isLeast } }, n) => { if (isLeast ? count > most[n] : count !== most[n]) wrong.push([n, count, most[n]]); });
    return wrong;
  },
  // Shows how many values wait once all of that is known, however busy the machine is.
  async showsWaits() {
    while (!(await page.run.learnWaits(() => true)));
    at("by").value = "waits";
    await showBy();
  },
  // The values of a VCD by the names of its variables: each event and the value from then on.
  changesIn(text) {
    const names = {}, found = {};
    let at = 0;
    for (const line of text.split("\n")) {
      const [, short, name] = /^\$var \w+ \d+ (\S+) (\S+) \$end$/.exec(line) ?? [], [, bits, of] = /^b([01]+) (\S+)$/.exec(line) ?? [], [, bit, logical] = /^([01])(\S+)$/.exec(line) ?? [];
      if (short) names[short] = name;
      else if (/^#\d+$/.test(line) && !logical) at = Number(line.slice(1));
      else if (bits) (found[names[of]] ??= []).push([at, String(BigInt.asIntN(64, BigInt(`0b${bits}`)))]);
      else if (bit) (found[names[logical]] ??= []).push([at, bit === "1" ? "true" : "false"]);
    }
    return found;
  },
  // Values that came, as a VCD has them.
  cameBy: () => Object.fromEntries(page.run.streams.map(({ print, name, values }, i) => [(print === undefined ? "" : "print_") + name.replaceAll(" ", "_"), page.run.timeline.times[i].map((k, row) => [k, values[row]])])),
  // Whether a VCD of the run has these, in whatever order.
  async agreesAsVcd() {
    const { run } = page, sorted = (found) => JSON.stringify(Object.entries(found).filter(([, list]) => list.length).sort());
    await run.learnTimes(() => true);
    return sorted(changesIn(vcdOf(run.streams, run.final.streams, run.timeline.times, run.steps))) === sorted(cameBy());
  },
  presses: (element, key) => void element.dispatchEvent(new KeyboardEvent("keydown", { key, bubbles: true, cancelable: true })),
  // Values of a diagram that lie on one another.
  labelsOver() {
    const all = [...document.querySelectorAll("#diagram .value")].map((it) => it.getBoundingClientRect());
    return all.flatMap((it, i) => all.slice(0, i).filter((other) => it.left < other.right - 1 && other.left < it.right - 1 && it.top < other.bottom - 3 && other.top < it.bottom - 3)).length;
  },
  // A text as a picture of its own: whether it is read as one, whether something in it leads out, its texts, and whether it has elements of other kinds.
  pictureIn(text) {
    const whole = new DOMParser().parseFromString(text, "image/svg+xml"), kinds = new Set([...whole.querySelectorAll("*")].map((it) => it.tagName));
    const known = ["svg", "rect", "defs", "marker", "path", "g", "text", "tspan", "title", "line", "circle", "clipPath"], texts = [...whole.querySelectorAll("text")].map((it) => it.textContent);
    return { isRead: !whole.querySelector("parsererror") && whole.documentElement.tagName === "svg", others: [...kinds].filter((it) => !known.includes(it)), texts, leadsOut: / (?:href|style|on\w+)=|javascript:/.test(text) };
  },

  // To what a run came.
  cameTo: () => JSON.stringify([page.run.last, page.run.end.ends, page.run.end.streams.map((it) => [it.name, it.count, it.taken, it.text])]),
  // With other turns of the processes: whether the run comes to the same, what `flowsOf` says, and the most events of a process in a row.
  async turned(turns) {
    const before = cameTo();
    at("turns").value = turns;
    await takeTurns();
    await until(() => page.moment.isEnd);
    const same = cameTo() === before, flows = await flowsOf();
    await until(() => !!page.run.timeline.order);
    return [same, flows, Math.max(...String.fromCharCode(...page.run.timeline.order.map((it) => it + 65)).match(/(.)\1*/g).map((it) => it.length))];
  },

  // For each text its first mistake's place, and the changes that are offered with what is said of the text behind each.
  async changesOf(texts) {
    const found = [], firstOf = async (program) => (await checked(checker, { program, input: "", bound: "0" })).why.marks.find((it) => it.severity === "error");
    for (const program of texts) {
      const first = await firstOf(program), fixes = first?.from === undefined ? [] : fixesOf(first, program), behind = [];
      for (const it of fixes) behind.push(await firstOf(applied(program, it)));
      const offers = first?.helps.some((it) => /^fix: /.test(it)) || / did you mean `/.test(first?.words ?? "");
      const said = first ? [first.words, ...first.helps, ...first.notes.map((it) => it.words)] : [];
      found.push([first?.from, fixes.map((it) => it.words), behind.map((it) => it && [it.from, it.words]), said, Boolean(offers)]);
    }
    return found;
  },
  // What becomes of a text by words of a change beside a place in it.
  becomes(text, place, help, words = "expected others, found it") {
    const [fix] = fixesOf({ where: "program", severity: "error", from: text.indexOf(place), words, helps: help ? [help] : [] }, text);
    return fix ? applied(text, fix) : text;
  },

  // What the module answers for each of some cases: status, report, picture, why, and the run that keeps all channels.
  async answersOf(cases, mostLetters) {
    const answers = [], isKept = (report) => isReport(report) && report.length <= mostLetters;
    for (const [program, input, bound] of cases) {
      const { status, report } = await checker.ask("run", { program, input, bound });
      const picture = await checker.ask("draw", { program, input });
      const isShort = new TextEncoder().encode(program).length <= 32768 && status <= 4;
      const whole = isKept(report) ? await checker.ask("whole", { program, input, quantum: QUANTUM, bound }) : "";
      answers.push([status, report, picture, isShort ? await checker.ask("explain", { program, input, bound }) : "", whole]);
    }
    return answers;
  },
  // What the page shows at each bound of a slider: how each process stands, and the values of each stream.
  async momentsOf(program, input) {
    const about = await ran(checker, { program, input, bound: "1000000" }, QUANTUM, () => {}), steps = [];
    for (let k = 0; k <= about.last; k += 1) {
      const { processes, streams } = await about.momentAt(k);
      const states = processes.map((it) => [it.number, it.name, it.state, it.on, it.events]);
      steps.push([states, streams.map((it) => [it.process ? `print ${it.name}` : it.name, it.values])]);
    }
    return steps;
  },
  // Whether the module has as much memory after 20 runs as after two.
  async keepsItsSize(program) {
    const sizes = [];
    for (let i = 0; i < 20; i++) sizes.push((await checker.ask("run", { program, input: "", bound: "300000" })).memory);
    return sizes[1] === sizes.at(-1);
  },
  // A file that is dropped on the page.
  async drops(text, name, test) {
    const dataTransfer = new DataTransfer();
    dataTransfer.items.add(new File([text], name));
    document.body.dispatchEvent(new DragEvent("drop", { dataTransfer, bubbles: true, cancelable: true }));
    await until(test);
  },
  types(text) {
    at("program").focus();
    at("program").setSelectionRange(0, 0);
    document.execCommand("insertText", false, text);
  },
  // Types a text at the beginning of a word of the program.
  typesAt(word, text) {
    const at = program.text.indexOf(word);
    program.field.focus();
    program.field.setSelectionRange(at, at);
    if (text) document.execCommand("insertText", false, text);
  },
  // What one can press of the window, and is smaller than 24 pixels either way.
  small: () => [...document.querySelectorAll("button, select, input:not([type=range]), #slider, #table td, #picture .touch")].filter((it) => it.checkVisibility() && !it.closest(".unseen"))
    .map((it) => [it.id || it.className.baseVal || it.className || it.textContent, it.getBoundingClientRect()])
    .filter(([name, { width, height }]) => name !== "touch" && (width < 24 || height < 24)).map(([name]) => name),
  async allSmall() {
    const found = [];
    await puts(programs.deadlock);
    for (const it of ["texts", "network", "values"]) found.push((show(it), small()));
    for (const it of ["plots", "diagram", "waits", "report", "table"]) found.push((showTab(it), small()));
    await puts(programs.endless.replace("I + 1;", "I + 1"));
    found.push((show("texts"), small()));
    await shows("alarm");
    await go(10);
    choose({ process: 0 });
    for (const it of ["texts", "network", "values"]) found.push((show(it), small()));
    beginLesson();
    await until(settled);
    found.push(small());
    endLesson();
    for (const open of [gallery, () => at("sheet").showModal(), showOrders]) {
      open();
      found.push(small());
      document.querySelector("dialog[open]").close();
    }
    show("network");
    return [...new Set(found.flat())];
  },
  // Milliseconds from a key to what it shows, the median of nine.
  async keyTime() {
    const times = [];
    at("program").focus();
    at("program").setSelectionRange(5000, 5000);
    for (let i = 0; i < 9; i++) {
      const start = performance.now();
      document.execCommand("insertText", false, "x");
      await new Promise((done) => requestAnimationFrame(() => setTimeout(done)));
      times.push(performance.now() - start);
    }
    return times.sort((a, b) => a - b)[4];
  },
});
new MutationObserver((_, it) => { if (document.querySelector("#picture svg")) { globalThis.pictured = performance.now(); it.disconnect(); } })
  .observe(document, { childList: true, subtree: true });
