What a run came to.

A report when it opens.
  $ until(settled)

Who did each event, and from event to event.
  $ shows("squares").then(orderOf)
  "agrees"
  $ flowsOf()
  "agrees"
  $ shows("filter").then(orderOf)
  "agrees"
  $ flowsOf()
  "agrees"
  $ shows("rates").then(orderOf)
  "agrees"
  $ flowsOf()
  "agrees"
  $ shows("alarm").then(orderOf)
  "agrees"
  $ flowsOf()
  "agrees"

Other turns of the processes, of 1, 10 and 1,000 events: the run comes to the same, and short turns are shorter.
  $ shows("rates")
  $ (async () => { const found = []; for (const it of ["1", "10", "1000"]) found.push(await turned(it)); return [found.map((it) => it.slice(0, 2)), found[0][2] < found[2][2]]; })()
  [[[true, "agrees"], [true, "agrees"], [true, "agrees"]], true]

Two runs that stopped elsewhere: the end is the report's, without the channels inside, and the last step is the other run's.
  $ puts(example("alarm").program, { input: example("alarm").input, bound: "40" })
  $ [page.run.isCut, page.run.last, page.moment.isEnd, JSON.stringify(page.moment.processes) === JSON.stringify(page.run.report.ends)]
  [true, 41, true, true]
  $ [...new Set(page.moment.streams.filter((it, i) => it.taken !== undefined).map((it) => it.name))]
  []
  $ go(40)
  $ [page.moment.isEnd, page.moment.processes.reduce((sum, it) => sum + it.events, 0)]
  [false, 40]

A run that is stopped has one order.
  $ puts(programs.endless, { bound: "1000" })
  $ at("turns").disabled
  true

A deadlock: its place, its mark, its boxes; nothing is blue.
  $ puts(programs.deadlock)
  $ told()
  ["deadlock", "Deadlock: 1 a and 2 a wait on one another, for ever"]
  $ [eachText("#details .place"), eachText("#programInk .stuck")[0], picture.boxes.every((it) => it.group.classList.contains("ring"))]
  [["2:61"], "wait", true]
  $ [document.querySelectorAll("#picture .box.now, #picture .arrow.now, #programInk .now").length, options()]
  [0, 0]
  $ click #details .place
  $ [document.activeElement.id, at("program").selectionStart === programs.deadlock.indexOf("wait(U)")]
  ["program", true]

Processes with several waits on one channel: it isn't known which, and that is said, for each process by itself.
  $ puts(programs.places)
  $ [...document.querySelectorAll("#details .spot")].map((it) => it.textContent.trim())
  ["1 a waits at 2:78, 2:105, 2:132 or 2:146", "2 b waits at 3:61"]
  $ [document.querySelectorAll("#programInk .stuck").length, document.querySelectorAll("#programInk .either").length]
  [1, 4]
  $ (showTab("waits"), document.querySelector("#waits tbody td:nth-child(4)").textContent.split(", in")[0])
  "at 2:78, 2:105, 2:132 or 2:146 from 2 b"
  $ (choose({ process: 0 }), at("chain").firstChild.textContent)
  "1 a waits on X at 2:78, 2:105, 2:132 or 2:146"
  $ (chooseNothing(), showTab("table"))

A fault: what waits because of it, its mark, its box, and why it stopped.
  $ puts(programs.fault)
  $ told()
  ["fault", "Fault in 1 a: division by 0"]
  $ [at("details").textContent.split(". ")[0], eachText("#programInk .stuck")[0], picture.boxes[0].group.classList.contains("fault")]
  ["1 process waits for ever because of it", "N", true]
  $ (showTab("waits"), eachText("#waits tbody td:nth-child(2)"))
  ["fault: division by 0", "waits on X"]
  $ showTab("table")

A fault beside a deadlock.
  $ puts(programs.both)
  $ told()
  ["fault", "Fault in 3 b: division by 0"]

A warning, with its mark in the program.
  $ puts(programs.endless.replace("send I", "send I mod 0"), { bound: "1000" })
  $ [eachText("#problems .warning p"), eachText("#programInk .mark.warning").length > 0]
  [["Warning: divisor is always 0"], true]

A bound, and ten times that.
  $ puts(programs.endless, { bound: "1000" })
  $ told()
  ["stopped", "Stopped by its bound of 1,000 events"]
  $ click #actions button:first-child
  $ until(() => at("bound").value === "10000" && settled())
  $ told()[1]
  "Stopped by its bound of 10,000 events"

What is no bound: Run goes to the field.
  $ void (at("bound").value = "abc", at("bound").oninput())
  $ until(() => at("bound").getAttribute("aria-invalid") === "true")
  $ (runTexts(), [at("boundHelp").textContent, document.activeElement.id])
  ["a number from 0 to 281,474,976,710,655", "bound"]
  $ ["1e6", "1,000", "281474976710656", "-1", ""].map((it) => (at("bound").value = it, String(boundOf())))
  ["1000000", "1000", "undefined", "undefined", "undefined"]
  $ void (at("bound").value = "1000000")

A run that is stopped by hand has the values so far.
  $ begins(programs.endless, { bound: "281474976710655" })
  $ until(() => /so far/.test(at("status").textContent) && !at("stop").disabled)
  $ click #stop
  $ until(() => !document.body.classList.contains("busy"))
  $ [/^Stopped by hand after [0-9]+,000,000 events$/.test(at("status").textContent), page.run.isByHand, page.run.report.streams[0].values.slice(0, 3).join(" ")]
  [true, true, "1 2 3"]

Memory doesn't grow from run to run.
  $ keepsItsSize(programs.silent)
  true

An example during a run.
  $ begins(programs.silent, { bound: "281474976710655" })
  $ until(() => !at("stop").disabled && !!runner.worker)
  $ shows("squares")
  $ page.run.text.split("\n")[0]
  "SQUARES: 0 1 4 9 16"
