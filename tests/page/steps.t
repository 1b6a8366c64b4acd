Steps of a run, and its values.

A chain in rows, with its arrows.
  $ puts(rowOf(20))
  $ [arrowsFit(), picture.laid.rows.length > 1, pictureFits()]
  [true, true, true]

Home.
  $ at("toEnd").blur()
  $ key Home
  $ until(() => page.moment.k === 0)
  $ [page.k, at("slider").valueAsNumber, at("event").textContent.includes("nothing has happened yet")]
  [0, 0, true]

An arrow: who did the event is blue.
  $ key ArrowRight
  $ until(() => page.moment.k === 1)
  $ [page.k, page.moment.mover, at("slider").getAttribute("aria-valuetext"), picture.boxes[0].group.classList.contains("now")]
  [1, 0, "event 1: 1 count begins a turn of a loop", true]

A tenth, and End.
  $ key PageDown
  $ until(() => page.moment.k === page.k)
  $ page.k === 1 + Math.round(page.run.last / 10)
  true
  $ key End
  $ until(() => page.moment.k === page.run.events)
  $ page.k === page.run.events
  true

A press lights a chain, marks its waits, and tells it in words.
  $ click #picture .box:nth-of-type(22)
  $ [page.chosen.processes.length > 1, document.querySelectorAll("#picture .box.chain").length > 1, eachText("#programInk .chain").length > 0]
  [true, true, true]
  $ at("chain").textContent.includes(" waits on C")
  true

A channel in words, and the picture fits beside it.
  $ shows("sorting")
  $ choose({ channel: page.run.streams.find((it) => it.name === "SECOND").channel })
  $ [at("chain").firstChild.textContent, pictureFits()]
  ["SECOND integer · from 5 compare to the output · 3 sent", true]
  $ key Escape
  $ [at("chain").hidden, page.chosen === NOTHING]
  [true, true]

An event, its place, and its values: the newest one, those that haven't come, those that wait, also below the arrows.
  $ shows("squares")
  $ go(14)
  $ [at("event").textContent, eachText("#programInk .now")[0], eachText("#table .newest")]
  ["Event 14 of 27 2 square sends 0 on SQUARES 5:47", "send", ["0"]]
  $ [eachText("#table .later"), eachText("#table .waiting"), eachText("#picture .count"), eachText("#picture .last"), table.columns.map((it) => it.stream.name)]
  [["1", "4", "9", "16"], ["1", "2", "3", "4"], ["4", "1"], ["4 3 2 1", "0"], ["SQUARES", "NUMBERS"]]
  $ (choose({ channel: 0 }), at("chain").firstChild.textContent)
  "NUMBERS integer · from 1 count to 2 square · 5 sent, 1 taken, 4 wait"
  $ chooseNothing()

A value that is taken.
  $ go(13)
  $ [at("event").textContent, eachText("#table .took")]
  ["Event 13 of 27 2 square takes 0 from NUMBERS 5:38", ["0"]]

An event inside: no further value.
  $ go(2)
  $ [at("event").textContent, eachText("#table .past, #table .newest, #table .waiting, #picture .count, #picture .last")]
  ["Event 2 of 27 1 count sends 0 on NUMBERS 3:41", ["1", "0", "", "", "0"]]

A value goes to its event, also one inside.
  $ click #table tbody tr:nth-child(4) td:nth-of-type(1)
  $ until(() => page.moment.k === page.k && page.k > 3)
  $ [page.moment.streams[1].count, page.moment.event.words]
  [3, "sends 4 on SQUARES"]
  $ click #table tbody tr:nth-child(4) td:nth-of-type(2)
  $ until(() => page.moment.k === page.k && page.k < 12)
  $ [page.moment.streams[0].count, page.moment.event.words]
  [3, "sends 2 on NUMBERS"]

Plots over events, and the slider.
  $ showTab("plots")
  $ void (at("by").value = "event", showBy())
  $ until(() => plots.by === "event")
  $ String(plots.lanes[0].spots) === String(page.run.timeline.times[0])
  true
  $ void (at("by").value = "place", showBy())
  $ void (at("slider").value = 6, at("slider").oninput())
  $ until(() => page.moment.k === page.k)
  $ [page.k, page.moment.event.words, plots.lanes.map((it) => it.value.textContent)]
  [6, "sends 2 on NUMBERS", ["2 at 3", ""]]

Of an input the plot has what was taken, and so has the table.
  $ puts(programs.copy, { input: "A: 7 8 9" })
  $ go(2)
  $ plots.lanes.map((it) => it.value.textContent)
  ["7 at 1", ""]
  $ showTab("table")
  $ puts(programs.copy, { input: "A: 7 8 9" })
  $ go(2)
  $ eachText("#table .took, #table .waiting, #picture .count, #picture .last")
  ["2", "9 8", "", "", "7", "8", "9"]

From event to event of what is chosen.
  $ shows("squares")
  $ (document.activeElement.blur(), choose({ process: 1 }))
  $ go(0)
  $ key N
  $ until(() => page.moment.step === page.k && page.k > 0)
  $ [page.k, page.moment.event.words, page.chosen.process]
  [12, "begins a turn of a loop", 1]
  $ ownEvents(true).then((it) => [it.length, it.every(([, who]) => who === 1)])
  [16, true]
  $ key P
  $ until(() => page.moment.step === page.k && page.k < page.run.last)
  $ page.k
  26
  $ (choose({ channel: 0 }), ownEvents(true)).then((it) => it.map(([words]) => words).join())
  "sends 0 on NUMBERS,sends 1 on NUMBERS,sends 2 on NUMBERS,sends 3 on NUMBERS,sends 4 on NUMBERS,takes 0 from NUMBERS,takes 1 from NUMBERS,takes 2 from NUMBERS,takes 3 from NUMBERS,takes 4 from NUMBERS"
  $ ownEvents(false).then((it) => it.map(([words]) => words.split(" ")[0]).join())
  "takes,takes,takes,takes,takes,sends,sends,sends,sends,sends"
  $ goToValue(0, 2).then(() => at("chain").firstChild.textContent)
  "NUMBERS value 3: 2 · waits"
  $ ownEvents(true).then((it) => [it.map(([words]) => words), at("chain").firstChild.textContent])
  [["sends 2 on NUMBERS", "takes 2 from NUMBERS"], "NUMBERS value 3: 2 · taken by 2 square"]
  $ (chooseNothing(), goToOwn(true)).then(() => at("toast").textContent)
  "Choose a process, a channel or a value first."

Run to a line: of a process, of a declaration, of an instance.
  $ go(0).then(() => runToLine(5)).then(() => [page.k, page.moment.event.words])
  [12, "begins a turn of a loop"]
  $ runToLine(5).then(() => [page.k, page.moment.event.words])
  [13, "takes 0 from NUMBERS"]
  $ go(0).then(() => runToLine(1)).then(() => page.moment.event.words)
  "sends 0 on NUMBERS"
  $ runToLine(6).then(() => page.k)
  3
  $ runToLine(7).then(() => at("toast").textContent)
  "Line 7 has no event: no wait, send, print or loop."
  $ go(Infinity)
  $ (at("program").focus(), at("program").setSelectionRange(program.text.indexOf("wait"), program.text.indexOf("wait")))
  $ key Enter alt
  $ until(() => page.moment.step === page.k && page.k < page.run.last)
  $ page.k
  12
  $ document.activeElement.blur()
  $ (({ left, top }) => document.elementFromPoint(left + 12, top + 8).className)(document.querySelector("#programInk .line:nth-child(5)").getBoundingClientRect())
  "line has-now"
  $ void document.querySelector("#programInk .line:nth-child(5)").click()
  $ until(() => page.moment.step === page.k && page.k !== 12)
  $ page.k
  13

Each event of a line, in all lines of an example, is one at which it can have been.
  $ shows("rates").then(linesOfEvents)
  []

At the end of a run nothing is blue but what waits.
  $ shows("squares")
  $ document.querySelectorAll("#picture .box.now, #picture .arrow.now, #programInk .now, #table .newest, #table .took").length
  0
  $ go(26)
  $ document.querySelectorAll("#picture .box.now, #picture .arrow.now, #programInk .now, #table .newest, #table .took").length > 1
  true

A value below an arrow is whole, or dots.
  $ shows("control").then(() => puts(program.text.replace("0", "123456789012"), { bound: "1000" }))
  $ eachText("#picture .last").flatMap((it) => it.split(" ")).every((it) => it === "" || it === "…" || page.run.streams.some(({ values }) => values.includes({ T: "true", F: "false" }[it] ?? it)))
  true

The value of each step is in sight.
  $ size 1440 900
  $ shows("sieve").then(unseen)
  []
  $ shows("hamming").then(unseen)
  []
  $ shows("matrix-product").then(unseen)
  []

After a run the outputs are in sight, from their first value on.
  $ shows("sieve")
  $ [table.columns[0].stream.role, at("table").scrollTop, isInSight(table.cells[0].each[0])]
  ["output", 0, true]
  $ size 1400 900

A run of up to a million events has a step for each, also the way into the deadlock at its end.
  $ puts(programs.late)
  $ [told()[0], page.run.events > 36000, page.run.last === page.run.events]
  ["deadlock", true, true]
  $ go(page.run.last - 1)
  $ [page.run.events - page.moment.k, Boolean(page.moment.event), page.moment.isEnd]
  [1, true, false]
  $ puts(programs.endless)
  $ go(900000)
  $ [page.moment.k, page.moment.event.words, page.run.last]
  [900000, "sends 450000 on X", 1000000]
  $ [0, 99999, 100000, 300000, 449999].map((it) => page.moment.streams[0].valueAt(it))
  ["1", "100000", "100001", "300001", "450000"]

Of a longer one the first steps can be seen, and its end: the number of its last event is right.
  $ puts(programs.endless, { bound: "1000002" })
  $ [page.run.last, page.run.steps, page.run.isCut]
  [20001, 20000, true]
  $ [at("event").textContent.trim(), at("slider").getAttribute("aria-valuetext")]
  ["Event 1,000,002 of 1,000,002 the end of the run", "event 1,000,002: the end of the run"]

The values of a long run are counted.
  $ puts(programs.endless)
  $ [page.run.last, page.run.steps, page.run.isCut, page.moment.streams[0].count, page.moment.streams[0].values.length]
  [1000000, 1000000, false, 500000, 100000]
  $ at("table").scrollTo(0, 1e9)
  $ until(() => table.cells.at(-1).row === 99999)
  $ [eachText("#table tbody tr:nth-last-child(2) th"), / \.\. and [0-9,]+ more$/m.test(at("report").textContent)]
  [["100000"], true]

A line between panes moves by two hundredths.
  $ shows("squares")
  $ (at("middleLine").focus(), globalThis.before = at("texts").clientWidth)
  $ key ArrowLeft
  $ Math.round((before - at("texts").clientWidth) / 14)
  2

An arrow key goes to the next tab.
  $ at("tab-table").focus()
  $ key ArrowRight
  $ [document.activeElement.id, page.tab, page.k]
  ["tab-plots", "plots", 27]
  $ key ArrowLeft

Space plays and pauses.
  $ document.activeElement.blur()
  $ key Space
  $ until(() => page.k > 0 && page.k < 27)
  $ at("play").getAttribute("aria-label")
  "Pause"
  $ key Space
  $ at("play").getAttribute("aria-label")
  "Play"

By keys in the picture: Tab leads to a box, arrows to what is beside, Enter chooses it; with a mouse the arrows are those of the steps.
  $ shows("squares")
  $ go(14)
  $ (picture.stops[0].element.focus(), globalThis.before = page.k)
  $ key ArrowRight
  $ document.activeElement.querySelector("title").textContent
  "NUMBERS: 5 sent, 1 taken, 4 wait"
  $ key ArrowRight
  $ document.activeElement.querySelector("title").textContent
  "2 square: ready to go on, after 3 events"
  $ key Enter
  $ [page.chosen.process, page.k === before, document.querySelectorAll("#picture [tabindex='0']").length]
  [1, true, 1]
  $ click #picture .box
  $ [document.activeElement.id, page.chosen.process]
  ["picture", 0]
  $ key ArrowRight
  $ until(() => page.moment.step === 15)
  $ chooseNothing()

By keys in the table: one stop for Tab, arrows to what is beside, Enter to the event of a value.
  $ shows("sieve")
  $ document.querySelectorAll("#table [tabindex='0']").length
  1
  $ document.querySelector("#table [tabindex='0']").focus()
  $ key ArrowRight
  $ document.activeElement.firstChild.textContent === page.run.streams[table.columns[1].i].name
  true
  $ (async () => { while (document.activeElement.firstChild.textContent !== "NUMBERS") document.activeElement.dispatchEvent(new KeyboardEvent("keydown", { key: "ArrowRight", bubbles: true })); })()
  $ (async () => { for (let i = 0; i < 40; i++) document.activeElement.dispatchEvent(new KeyboardEvent("keydown", { key: "ArrowDown", bubbles: true })); })()
  $ [table.here.row, document.activeElement === table.cells[39 - table.first].each[table.here.column], isInSight(document.activeElement), document.querySelectorAll("#table [tabindex='0']").length]
  [39, true, true, 1]
  $ key Enter
  $ until(() => page.moment.step === page.k && page.k < page.run.last)
  $ [page.moment.event.row, document.activeElement.tagName]
  [39, "TD"]
  $ at("table").scrollTo(0, 0)
  $ until(() => table.first === 0)
  $ document.activeElement.id
  "table"
  $ click #table .stream
  $ [document.activeElement.id, page.chosen.channel !== undefined]
  ["table", true]
  $ key ArrowRight
  $ (chooseNothing(), document.activeElement.blur())
