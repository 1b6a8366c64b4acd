For a class: links to a step, the picture alone, other orders with the same values, and a lesson.

A link has the step, the tab, what is chosen and the turns.
  $ size 1400 900
  $ shows("rates").then(() => (at("turns").value = "10", takeTurns())).then(() => go(7))
  $ (showTab("diagram"), choose({ process: 1 }), viewOf())
  {"step": 7, "turns": 10, "tab": "diagram", "process": 2}
  $ linkOf(texts(), viewOf()).link.split("&").slice(-4)
  ["step=7", "turns=10", "tab=diagram", "process=2"]
  $ (chooseNothing(), choose({ channel: 2 }), showTab("table"), go(Infinity)).then(viewOf)
  {"turns": 10, "channel": "HALF"}

It opens with all of that.
  $ open #program=begin+integer+channel+X%3B+integer+output+channel+O%3B+process+a%28integer+out+W%29%3B+begin+integer+I%3B+while+I+%3C+9+do+begin+send+I+on+W%3B+I+%3A%3D+I+%2B+1+end+end%3B+process+b%28integer+in+U%3B+integer+out+W%29%3B+begin+repeat+send+wait%28U%29+on+W+end%3B+a%28X%29+par+b%28X%2C+O%29+end&input=&bound=500&step=12&tab=plots&channel=X&turns=10
  $ until(() => settled() && page.moment.step === page.k)
  $ [page.k, page.tab, page.run.wiring.channels[page.chosen.channel].name, page.run.quantum, at("turns").value, at("bound").value]
  [12, "plots", "X", 10, "10", "500"]
  $ runTexts().then(() => until(() => settled() && page.moment.step === page.k)).then(() => [page.k, page.chosen.channel, page.run.quantum])
  [12, 0, 10]

What it asks for and isn't there is left out, whatever it is.
  $ open #program=begin+integer+output+channel+O%3B+process+a%28integer+out+W%29%3B+begin+send+1+on+W+end%3B+a%28O%29+end&input=&bound=9&step=999999999999999&tab=%3Cimg+src%3Dx+onerror%3Dalert(1)%3E&process=77&channel=__proto__&turns=3&view=%3Cscript%3E
  $ until(() => settled() && page.moment.step === page.k)
  $ [page.k === page.run.last, TABS.includes(page.tab), page.chosen === NOTHING, page.run.quantum, page.isAlone, document.querySelectorAll("img, main script").length]
  [true, true, true, 1000, false, 0]
  $ [viewIn(new URLSearchParams("step=-1&process=1e9&turns=x")).step, viewIn(new URLSearchParams("process=1e9")).process, viewIn(new URLSearchParams("")).channel]
  [null, null, null]

Another link in the same window: what was there is kept.
  $ puts(programs.deadlock)
  $ void (location.hash = "#program=begin+integer+output+channel+O%3B+process+a%28integer+out+W%29%3B+begin+send+7+on+W+end%3B+a%28O%29+end&input=&bound=9&step=0")
  $ until(() => settled() && page.run.text.startsWith("O: 7") && page.moment.step === page.k)
  $ [page.k, store.state.yours[0].program === programs.deadlock, location.hash]
  [0, true, ""]

What a link asked for isn't done to other texts.
  $ open #program=begin+end&input=&bound=9&step=3&tab=waits
  $ until(() => at("verdict").className === "refused")
  $ shows("squares").then(() => until(() => page.moment.step === page.k)).then(() => [page.k, page.wanted])
  [27, null]

The picture alone: larger, with the steps below it, and the page again.
  $ (showTab("table"), globalThis.before = picture.scale, showAlone(true), until(() => picture.scale > before))
  $ [isShown("#texts"), isShown("#values"), isShown("header"), isShown("#transport"), isShown("#verdict"), viewOf()]
  [false, false, false, true, false, {"view": "picture"}]
  $ go(3).then(() => [page.k, pictureFits()])
  [3, true]
  $ size 820 700
  $ [pictureFits(), unfit().then((it) => it.length)].length
  2
  $ size 1400 900
  $ key Escape
  $ until(() => isShown("#texts"))
  $ [page.isAlone, Math.abs(picture.scale - before) < 0.3, isShown("#endAlone")]
  [false, true, false]
  $ open #program=begin+integer+output+channel+O%3B+process+a%28integer+out+W%29%3B+begin+send+1+on+W+end%3B+a%28O%29+end&input=&bound=9&view=picture
  $ until(() => settled() && isShown("#picture .box"))
  $ [isShown("#texts"), isShown("#transport"), pictureFits()]
  [false, true, true]
  $ click #endAlone
  $ (until(() => isShown("#texts")), page.isAlone)
  false

Twenty other orders: a tick for each. (Some runs of few events have the same order.)
  $ shows("squares")
  $ click #others
  $ until(() => /runs have/.test(at("orders").lastChild.textContent))
  $ [document.querySelectorAll("#orders li.same").length, document.querySelectorAll("#orders li.other").length, /^20 of 20 runs have the same values, in \d+ different orders or more\.$/.test(at("orders").lastChild.textContent)]
  [20, 0, true]
  $ at("orders").close()

Of a run that was stopped the values of one order begin those of the other; and values that differ aren't taken for the same.
  $ puts(programs.endless, { bound: "300" }).then(() => (void showOrders(), until(() => /runs have/.test(at("orders").lastChild.textContent))))
  $ [document.querySelectorAll("#orders li.same").length, /was stopped/.test(at("orders").textContent)]
  [20, true]
  $ at("orders").close()
  $ (({ a, b, c }) => [agree(a, b, false), agree(a, c, false), agree(a, b, true), agree(a, a, true)])({ a: readReport("X: 1 12\nfinished 2\n"), b: readReport("X: 1 12 3\nfinished 3\n"), c: readReport("X: 1 123\nfinished 2\n") })
  [true, false, false, true]

A lesson of six steps; texts that it replaces are kept.
  $ puts(programs.fault)
  $ void (at("sheet").showModal(), at("beginLesson").click())
  $ until(() => settled() && page.name === "squares" && page.moment.step === page.k)
  $ [at("sheet").open, isShown("#lesson"), page.k, page.tab, store.state.yours[0].program === programs.fault]
  [false, true, 6, "table", true]
  $ (async () => { const found = []; for (let i = 1; i < LESSON.length; i++) { document.querySelectorAll("#lesson .steps button")[1].click(); await until(() => settled() && page.name === LESSON[i][1] && page.moment.step === page.k); found.push([page.name, page.tab, page.k === (LESSON[i][2].step ?? page.run.last)]); } return found; })()
  [["squares", "diagram", true], ["rates", "table", true], ["hamming", "plots", true], ["control", "waits", true], ["sieve", "table", true]]
  $ [document.querySelectorAll("#lesson .steps button")[1].disabled, at("lesson").textContent.startsWith("6 of 6: ")]
  [true, true]
  $ click #lesson .close
  $ isShown("#lesson")
  false
  $ (showTab("table"), shows("squares"))
