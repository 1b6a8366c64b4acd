How the page looks: at four widths, by day and by night; and what a browser may lack.

Nothing scrolls, nothing is cut off.
  $ size 1400 900
  $ shows("hamming").then(unfit)
  []
  $ size 820 700
  $ unfit()
  []
  $ size 390 844
  $ unfit()
  []
  $ size 320 568
  $ unfit()
  []

In a low window, as a large page or a phone on its side has, the picture keeps its room, and the rest is below it.
  $ size 720 450
  $ shows("hamming").then(unfit)
  []
  $ [at("picture").clientHeight >= 180, isShown("#legend")]
  [true, false]
  $ size 844 390
  $ unfit()
  []
  $ [at("picture").clientHeight >= 150, at("results").scrollHeight > at("results").clientHeight]
  [true, true]
  $ size 1024 600
  $ unfit()
  []
  $ at("picture").clientHeight >= 280
  true

What can be pressed is 24 pixels wide and high, and a phone has all of it.
  $ size 390 844
  $ allSmall()
  []
  $ (shows("rates"), isShown("#inTurns"))
  true
  $ size 1400 900
  $ allSmall()
  []

The signs have the shapes of the boxes, and the colours of the table are named.
  $ shows("squares")
  $ [document.querySelectorAll("#legend path[d^=M]").length, eachText("#colours span")]
  [4, ["sent now", "taken now", "waits", "comes later"]]
  $ (showTab("plots"), isShown("#colours"))
  false

A short program leaves its room to an input of some lines.
  $ puts(programs.copy, { input: "A: 7 8 9\n10 11\n12\n13\n14\n15\n16" })
  $ [at("inputPane").scrollHeight <= at("inputPane").clientHeight, at("programPane").scrollHeight <= at("programPane").clientHeight]
  [true, true]
  $ shows("squares")

The numbers of the axis are whole, and so is a name beside its value.
  $ puts(programs.endless, { bound: "4000" })
  $ [...document.querySelectorAll("#plots .tick")].every((it) => it.getBoundingClientRect().right <= at("plots").getBoundingClientRect().right - 4)
  true
  $ shows("filter").then(() => plots.lanes.map((it) => it.value.getBBox().y >= it.group.querySelector(".name").getBBox().y + 14).includes(false))
  false
  $ showTab("table")

A note covers nothing.
  $ (toast("Your texts were replaced, and kept.", "Undo", () => {}), covers("#toast"))
  []
  $ size 390 844
  $ (toast("Your texts were replaced, and kept.", "Undo", () => {}), covers("#toast"))
  []
  $ void at("toast").replaceChildren()
  $ size 1400 900

Contrast, by day and by night.
  $ size 1400 900
  $ allFaint()
  []
  $ size 1400 900 dark
  $ allFaint()
  []
  $ size 1400 900

A browser that lacks something is told so.
  $ lacks delete globalThis.DecompressionStream
  $ until(() => at("verdict").className === "refused")
  $ [at("status").textContent, at("details").textContent]
  ["The interpreter did not start", "This browser has no DecompressionStream. A newer one has it."]
  $ lacks delete globalThis.WebAssembly
  $ until(() => at("verdict").className === "refused")
  $ [at("status").textContent, at("details").textContent]
  ["The interpreter did not start", "This browser has no WebAssembly. A newer one has it."]
  $ lacks globalThis.Worker = class { constructor() { throw new Error("The worker was refused") } }
  $ until(() => at("verdict").className === "refused")
  $ [at("status").textContent, at("details").textContent]
  ["The interpreter did not start", "The worker was refused. Reload the page; if it stays so, another browser may run it."]

Where nothing is kept it is said, and asked.
  $ lacks for (const it of ["localStorage", "sessionStorage"]) Object.defineProperty(globalThis, it, { get() { throw new Error("blocked") } })
  $ until(settled)
  $ puts(programs.deadlock)
  $ at("toast").textContent
  "This browser keeps no texts: download yours."
  $ void (globalThis.confirm = () => false, put(example("squares"), "squares"))
  $ [program.text === example("squares").program, !!onbeforeunload]
  [false, true]
  $ void (onbeforeunload = null)
  $ lacks ;
  $ shows("squares")
