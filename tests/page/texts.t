Mistakes, changes of texts, and what becomes of them.

A mistake: its mark, its field, and nothing was run.
  $ puts(programs.endless.replace("I + 1;", "I + 1"))
  $ [eachText("#programInk .error"), at("program").getAttribute("aria-invalid"), at("details").textContent.includes("Nothing was run.")]
  [["1"], "true", true]

A change that is applied, and undone.
  $ click #problems .apply
  $ until(() => at("verdict").className === "edited")
  $ program.text === programs.endless
  true
  $ void document.execCommand("undo")
  $ program.text === programs.endless.replace("I + 1;", "I + 1")
  true

A mistake of the input.
  $ puts(programs.copy, { input: "A: 1 x4" })
  $ [eachText("#inputInk .error"), at("input").getAttribute("aria-invalid")]
  [["x4"], "true"]

Mistakes behind letters of several bytes, and in a long program.
  $ puts(programs.endless.replace("I + 1;", "I + 1").replace("I := I", "comment 漢字 😀; I := I"))
  $ eachText("#programInk .error")
  ["1"]
  $ puts(programs.endless.replace("I + 1;", "I + 1").replace("a(X)", "a(X)" + " ".repeat(40000)))
  $ eachText("#programInk .error")
  ["send"]

What becomes of a text by the words of a change.
  $ [becomes("a = 1", "=", "fix: replace `=` with `:=`"), becomes("a b", " b", "fix: insert `;` after `a`"), becomes("if a b", " b", "fix: insert `then` after `a`")]
  ["a := 1", "a; b", "if a then b"]
  $ [becomes("a, b", ",", "fix: replace `,` with `;`"), becomes("a 7 b", "7", "fix: remove `7`"), becomes("send 2, W", ",", "fix: replace `,` with `on`")]
  ["a; b", "a  b", "send 2 on W"]
  $ [becomes("a,b", ",", "fix: remove `,`"), becomes("do a; b end", "b", "fix: insert `begin` after `do` at 1:3")]
  ["a b", "do begin a; b end"]
  $ becomes("NUMBR", "NUMBR", "", "name is not declared; did you mean `NUMBER`?")
  "NUMBER"
  $ becomes("sned 1", "sned", "fix: replace `sned` with `send`", "`sned` is no keyword; did you mean `send`?")
  "send 1"
  $ becomes("a b", "b", "fix: a new word, of which nothing is known")
  "a b"

A change turns the old run grey at once, until it is taken back.
  $ puts(programs.endless)
  $ (page.run.milliseconds = 1000, types(" "), at("results").classList.contains("old"))
  true
  $ until(() => at("verdict").className === "edited")
  $ told()[1]
  "Changed since the last run"
  $ void document.execCommand("undo")
  $ until(() => at("verdict").className === "stopped")
  $ at("results").classList.contains("old")
  false

Control and Enter run it, and so does Run, which keeps the focus.
  $ key Enter control
  $ until(settled)
  $ [document.activeElement.id, page.number > 1]
  ["program", true]
  $ at("run").focus()
  $ click #run
  $ until(settled)
  $ document.activeElement.id
  "run"

A link from a file, and a text that is too long for one.
  $ shows("squares")
  $ [linkOf(texts()).link.startsWith("kahn.html#program=begin"), linkOf(texts()).isPart, Boolean(linkOf({ program: "x".repeat(32001) }).fault)]
  [true, true, true]

A text survives a reload.
  $ puts(programs.deadlock)
  $ open
  $ program.text === programs.deadlock
  true

What is replaced is kept, and comes back by a button, with the focus at another.
  $ shows("alarm")
  $ store.state.yours[0].program === programs.deadlock
  true
  $ click #toast button
  $ until(() => program.text === programs.deadlock)
  $ document.activeElement.id
  "examples"

An arrow key chooses no example.
  $ gallery()
  $ key ArrowDown
  $ (at("gallery").close(), program.text === programs.deadlock)
  true

A link; texts before it are kept, and an edit clears the address.
  $ open #program=begin+end&input=&bound=7
  $ [program.text, at("bound").value, store.state.yours.some((it) => it.program === programs.deadlock)]
  ["begin end", "7", true]
  $ (program.field.value += " ", program.field.dispatchEvent(new Event("input")), location.hash)
  ""

Files that are dropped on the page.
  $ drops(programs.endless, "mine.kahn", () => program.text === programs.endless)
  $ drops("A: 1", "mine.input", () => input.text === "A: 1")
  $ program.text === programs.endless
  true

A text of another tab is kept.
  $ void localStorage.setItem("kahn.page", JSON.stringify({ ...store.state, texts: { program: "of another tab", input: "", bound: "1" } }))
  $ (save(), store.state.yours[0].program)
  "of another tab"

No call out of the page: its policy refuses it.
  $ fetch("http://localhost:1/").then(() => "went out", () => "refused")
  "refused"
  $ new Promise((done) => setTimeout(done, 300))
  $ refused localhost:1/
  true
