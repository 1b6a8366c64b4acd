Plots: a part of the axis, two cursors, how many values wait, and files.

A part of the axis by keys and buttons, and the whole again; the picture of the network stays as it is.
  $ size 1400 900
  $ shows("hamming").then(() => showTab("plots"))
  $ (globalThis.before = picture.scale, [plots.from, plots.to, plots.isWhole])
  [0.5, 42.5, true]
  $ presses(at("plots"), "+")
  $ [plots.isWhole, Math.round(plots.to - plots.from), picture.scale === before]
  [false, 28, true]
  $ (at("nearer").click(), at("nearer").click(), Math.round(plots.to - plots.from))
  7
  $ (at("farther").click(), Math.round(plots.to - plots.from))
  14
  $ presses(at("plots"), "0")
  $ [plots.from, plots.to]
  [0.5, 42.5]

The wheel makes it larger around a place, and moves it; it follows the step.
  $ void wheels(at("plots"), -900)
  $ plots.isWhole
  false
  $ (globalThis.span = plots.to - plots.from, plots.pan(1000), [plots.to, Math.abs(plots.to - plots.from - span) < 1e-9])
  [42.5, true]
  $ go(5).then(() => page.moment.event.row + 1 >= plots.from && page.moment.event.row + 1 <= plots.to)
  true
  $ plots.entire()

Two cursors, with the values at both and by how much the second is greater.
  $ shows("squares").then(() => at("cursors").click())
  $ [at("cursors").getAttribute("aria-pressed"), at("apart").textContent, plots.lanes[1].value.textContent, plots.lanes[1].other.textContent]
  ["true", "A 2, B 4: 2 apart", "A 1", "B 9 (+8)"]
  $ plots.handles[1].focus()
  $ presses(document.activeElement, "ArrowRight")
  $ [at("apart").textContent, plots.lanes[1].other.textContent, document.activeElement === plots.handles[1], document.activeElement.getAttribute("aria-valuenow"), page.k === page.run.last]
  ["A 2, B 5: 3 apart", "B 16 (+15)", true, "5", true]
  $ presses(document.activeElement, "PageUp")
  $ at("apart").textContent
  "A 2, B 5: 3 apart"
  $ (at("cursors").click(), [at("apart").textContent, plots.lanes[1].value.textContent, plots.handles.length])
  ["", "16 at 5", 0]

The greatest and the least value there are: their difference is exact.
  $ puts(programs.copy, { input: "A: -9223372036854775808 9223372036854775807" })
  $ (at("cursors").click(), plots.cursors = [1, 2], plots.draw(), plots.difference(plots.lanes[0]))
  " (+1.84e+19)"
  $ at("cursors").click()

How many wait, with the greatest number: beside the steps.
  $ shows("hamming")
  $ showsWaits().then(() => [plots.by, plots.lanes.length, plots.lanes.every((it) => !it.greatest.isLeast)])
  ["waits", 9, true]
  $ waitingOf()
  []
  $ go(400).then(() => [plots.lanes[0].group.querySelector(".most").textContent, plots.lanes[1].value.textContent, page.moment.streams[1].count - page.moment.streams[1].taken])
  ["most: 12, at 849", "5 wait", 5]
  $ shows("rates").then(showsWaits).then(waitingOf)
  []
  $ plots.lanes.every((it) => !it.greatest.isLeast)
  true

Where it isn't known it isn't said: at first the greatest number that is known is one of those that are possible.
  $ puts(programs.late).then(() => (plots.showBy("waits"), plots.lanes.map((it) => it.group.querySelector(".most").textContent.includes("or more"))))
  [true, true]

A run that is cut, or that has no channel inside.
  $ puts(programs.endless, { bound: "1000002" }).then(() => [...at("by").options].map((it) => it.disabled))
  [false, true, true]
  $ shows("count").then(() => (plots.showBy("waits"), eachText("#plots .role")))
  ["event", "No channel between two processes."]

Values as a table, as `kahn_explain --trace` prints them; and over the events.
  $ shows("squares").then(() => csvOf(page.run.final.streams).split("\n").slice(0, 3))
  ["place,NUMBERS,SQUARES", "1,0,0", "2,1,1"]
  $ [eachText("#saving button"), (showTab("table"), eachText("#saving button"))]
  [["CSV", "VCD", "SVG"], ["CSV"]]
  $ shows("squares").then(agreesAsVcd)
  true
  $ shows("filter").then(agreesAsVcd)
  true
  $ [0, 93, 94, 8929, 8930].map(shortName)
  ["!", "~", "!!", "~~", "!!!"]

As a picture.
  $ (showTab("plots"), (({ isRead, others, leadsOut, texts }) => [isRead, others, leadsOut, texts.includes("place")])(pictureIn(svgFile([plots.axis, plots.svg], paper()))))
  [true, [], false, true]
  $ showTab("table")
