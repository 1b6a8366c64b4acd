What the page does while somebody types, and what stays from one run to the next.

A short run is made again while one types, at the same step and with the same picture.
  $ size 1400 900
  $ shows("squares")
  $ go(9)
  $ (globalThis.before = picture.svg, typesAt("5)", "1"))
  $ until(() => settled() && page.run.texts.program === program.text && page.moment.step === page.k)
  $ [page.k, told()[1], eachText("#picture .values"), document.activeElement.id, picture.svg === before]
  [9, "Finished after 77 events", ["N=15"], "program", false]
  $ (globalThis.before = picture.svg, typesAt("W;", " "))
  $ until(() => settled() && page.run.texts.program === program.text && page.moment.step === page.k)
  $ [page.k, picture.svg === before]
  [9, true]

A mistake is marked at once, and said once its line is left: nothing red before.
  $ puts(programs.endless, { bound: "1000" })
  $ typesAt("send I", "sned ")
  $ until(() => eachText("#programInk .error").length > 0)
  $ [told()[1], at("problems").hidden, at("program").getAttribute("aria-invalid")]
  ["Changed since the last run", true, "false"]
  $ key ArrowDown
  $ until(() => at("verdict").className === "refused")
  $ [at("problems").hidden, at("program").getAttribute("aria-invalid")]
  [false, "true"]

It is listed after a second without a key, also in its line.
  $ puts(programs.endless, { bound: "1000" })
  $ typesAt("send I", "sned ")
  $ until(() => !at("problems").hidden)
  $ told()[0]
  "edited"
  $ at("program").blur()
  $ until(() => at("verdict").className === "refused")

The button that has the focus keeps it when the list is made again.
  $ document.querySelector("#problems .place").focus()
  $ (globalThis.before = document.activeElement, showProblems(), document.activeElement === before)
  true
  $ (page.check.why.marks.push({ ...page.check.why.marks[0] }), showProblems(), document.activeElement.matches("#problems .place"))
  true

The step, the turns and the choice stay at a new run.
  $ shows("rates")
  $ (at("turns").value = "10", takeTurns()).then(() => go(7))
  $ choose({ process: 1 })
  $ (globalThis.before = page.chosen.process, typesAt("begin", " "))
  $ until(() => page.isOld)
  $ runTexts().then(() => until(() => settled() && page.moment.step === page.k))
  $ [page.k, page.run.quantum, at("turns").value, page.chosen.process === before, page.chosen.processes.length > 0]
  [7, 10, "10", true, true]
  $ (chooseNothing(), choose({ channel: 2 }), runTexts()).then(() => until(() => settled() && page.moment.step === page.k))
  $ [page.chosen.channel, page.k]
  [2, 7]
  $ go(Infinity).then(runTexts).then(() => until(settled))
  $ page.k === page.run.last
  true

Another program begins at its end, with nothing chosen.
  $ shows("squares")
  $ [page.k === page.run.last, page.run.quantum, at("turns").value, page.chosen === NOTHING]
  [true, 1000, "1000", true]

A list of mistakes of texts before goes when a run takes long.
  $ puts(programs.endless.replace("I + 1;", "I + 1"))
  $ at("problems").hidden
  false
  $ begins(programs.silent, { bound: "281474976710655" })
  $ until(() => /so far/.test(at("status").textContent))
  $ at("problems").hidden
  true
  $ click #stop
  $ until(() => settled() && page.run.isByHand && page.run.why.reasons.length > 0)

Enter keeps the indentation, and goes deeper behind a word that opens.
  $ puts("begin\n  begin\n  a")
  $ (typesAt("begin\n  a", ""), at("program").setSelectionRange(13, 13))
  $ key Enter
  $ program.text
  "begin\n  begin\n    \n  a"
  $ void document.execCommand("undo")
  $ (at("program").setSelectionRange(17, 17), program.text)
  "begin\n  begin\n  a"
  $ key Enter
  $ program.text
  "begin\n  begin\n  a\n  "

The other end of a block or a bracket is marked.
  $ shows("hamming")
  $ (at("program").focus(), at("program").setSelectionRange(program.text.length - 2, program.text.length - 2))
  $ until(() => eachText("#programInk .pair").length === 2)
  $ program.pair.map((it) => program.text.slice(it.from, it.to) + placeAt(program.text, it.from).line)
  ["end27", "begin2"]
  $ program.lexemes().filter((it) => /^(begin|end|[()])$/.test(it.text)).every((it) => partnerOf(program.lexemes(), it.from).length === 2)
  true

An example whose changes are all undone has its name.
  $ (typesAt("begin", " "), at("title").textContent)
  "your own"
  $ (void document.execCommand("undo"), at("title").textContent)
  "Hamming numbers"

A sign that turns letters round is named, and the letters are shown in their order.
  $ puts("comment \u202e abc;" + programs.endless, { bound: "1000" })
  $ [eachText("#problems .warning p"), document.querySelector("#programInk .line").textContent.includes("\u202e"), document.querySelectorAll("#programInk .turning").length]
  [["Warning: U+202E can't be seen, and shows letters in another order"], false, 1]
  $ click #problems .place
  $ program.text[at("program").selectionStart] === "\u202e"
  true

A change is named without its heading.
  $ puts(programs.endless.replace("I + 1;", "I + 1"))
  $ eachText("#problems .apply")
  ["Apply: insert ; after 1"]
  $ puts(programs.endless.replace("send I", "send J"))
  $ eachText("#problems .apply").every((it) => !it.includes("did you mean"))
  true
  $ shows("squares")
  $ document.activeElement.blur()
