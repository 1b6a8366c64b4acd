The diagram of events: lifelines, and an arrow from each send to its take.

Each event and each arrow agrees with what the steps say.
  $ size 1500 900
  $ shows("squares").then(lifelinesOf)
  []
  $ shows("rates").then(lifelinesOf)
  []
  $ shows("alarm").then(lifelinesOf)
  []
  $ puts(programs.places).then(lifelinesOf)
  []

It shows the events around the step: signs, arrows, values, and the step in blue.
  $ shows("squares")
  $ (showTab("diagram"), go(14)).then(() => until(isLearnt))
  $ [diagram.first, diagram.high, document.querySelectorAll("#diagram .sign").length, document.querySelectorAll("#diagram .life").length]
  [0, 27, 27, 2]
  $ [document.querySelectorAll("#diagram .arrow").length, document.querySelectorAll("#diagram .sign.now.send").length, eachText("#diagram .value.now")]
  [10, 1, ["0"]]
  $ eachText("#diagram li").filter((it) => /^Event (?:2|13|14|27):/.test(it))
  ["Event 2: 1 count sends 0 on NUMBERS, which event 13 takes", "Event 13: 2 square takes 0 from NUMBERS", "Event 14: 2 square sends 0 on SQUARES", "Event 27: 2 square begins a turn of a loop"]

It follows the step, and stays where the step is in sight.
  $ shows("hamming").then(() => go(400)).then(() => until(isLearnt))
  $ [diagram.first < 400, diagram.high >= 400, labelsOver()]
  [true, true, 0]
  $ (globalThis.before = diagram.first, go(401)).then(() => until(isLearnt))
  $ diagram.first === before
  true
  $ go(849).then(() => until(isLearnt))
  $ diagram.high
  849
  $ go(0).then(() => until(isLearnt))
  $ [diagram.first, document.querySelectorAll("#diagram :is(.sign, .arrow).now").length]
  [0, 0]

A press on an event goes to it, on an arrow to its value, on a name chooses the process.
  $ shows("squares").then(() => go(3)).then(() => until(isLearnt))
  $ void at("diagram").querySelectorAll(".sign")[19].dispatchEvent(new MouseEvent("click", { bubbles: true, clientX: at("diagram").querySelector("svg.ticks + svg").getBoundingClientRect().left + diagram.xOf(20), clientY: 0 }))
  $ until(() => page.moment.step === 20)
  $ void at("diagram").querySelector(".arrow").dispatchEvent(new MouseEvent("click", { bubbles: true }))
  $ until(() => page.chosen.value && page.moment.step === page.k)
  $ [page.k, page.chosen.value.row, page.run.streams[page.chosen.value.stream].name]
  [2, 0, "NUMBERS"]
  $ chooseNothing()
  $ click #diagram .who
  $ [page.chosen.process, document.querySelector("#diagram .who").classList.contains("chosen")]
  [0, true]

By keys: one stop for Tab among the names, arrows to the next, Enter chooses; + and - for the width of events.
  $ chooseNothing()
  $ document.querySelectorAll("#diagram [tabindex='0']").length
  1
  $ document.querySelector("#diagram [tabindex='0']").focus()
  $ key ArrowDown
  $ key Enter
  $ [page.chosen.process, document.activeElement.textContent.includes("2 square"), document.querySelectorAll("#diagram [tabindex='0']").length]
  [1, true, 1]
  $ (globalThis.before = [diagram.each, picture.scale], at("diagram").focus())
  $ void at("diagram").dispatchEvent(new KeyboardEvent("keydown", { key: "+", bubbles: true, cancelable: true }))
  $ [diagram.each > before[0], picture.scale === before[1]]
  [true, true]
  $ void at("diagram").dispatchEvent(new KeyboardEvent("keydown", { key: "0", bubbles: true, cancelable: true }))
  $ diagram.each === before[0]
  true
  $ (chooseNothing(), document.activeElement.blur())

Thirty processes: each has a lifeline with its name, and who acts is in sight.
  $ puts(rowOf(30)).then(() => go(400)).then(() => until(isLearnt))
  $ [document.querySelectorAll("#diagram .life").length, diagram.row >= 20, labelsOver()]
  [30, true, 0]
  $ (({ top, bottom }) => { const room = at("diagram").getBoundingClientRect(); return top >= room.top && bottom <= room.bottom; })(document.querySelector("#diagram .sign.now").getBoundingClientRect())
  true

Two hundred: a step, in four times what a quiet machine takes.
  $ puts(rowOf(200)).then(() => go(900))
  $ stepTime().then((it) => it <= 240 || isBusy() || it)
  true

Far in a long run, where the values are counted.
  $ puts(programs.endless).then(() => go(300001)).then(() => until(() => eachText("#diagram li").some((it) => /^Event 300,000:/.test(it))))
  $ eachText("#diagram li").filter((it) => /^Event 300,00[01]:/.test(it))
  ["Event 300,000: 1 a sends 150000 on X", "Event 300,001: 1 a begins a turn of a loop"]
  $ go(5)

Of a run that is cut, the first steps; and of a deadlock the end.
  $ puts(programs.endless, { bound: "1000002" }).then(() => go(Infinity)).then(() => until(isLearnt))
  $ diagram.high
  20000
  $ puts(programs.deadlock).then(() => go(Infinity)).then(() => until(isLearnt))
  $ [diagram.high === page.run.events, document.querySelectorAll("#diagram .who.ring").length, document.querySelectorAll("#diagram .sign.now").length]
  [true, 2, 1]

As a file it stands alone: colours and letters are in it, and nothing leads out.
  $ shows("squares").then(() => go(14)).then(() => until(isLearnt))
  $ (({ isRead, others, leadsOut, texts }) => [isRead, others, leadsOut, texts.includes("1 count"), texts.includes("event")])(pictureIn(svgFile([...at("diagram").querySelectorAll(":scope > svg")], paper())))
  [true, [], false, true, true]
  $ (({ isRead, others, leadsOut, texts }) => [isRead, others, leadsOut, texts.filter((it) => it.includes("count"))])(pictureIn(svgFile([picture.svg], paper())))
  [true, [], false, ["1count"]]
  $ [eachText("#saving button"), (showTab("table"), eachText("#saving button"))]
  [["SVG"], ["CSV"]]
