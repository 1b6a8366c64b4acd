The pictures of the page: python3 tests/web.py chromium release/kahn.html --pictures

Steps.
  $ size 1300 900
  $ (async () => { await shows("hamming"); while (!(await page.run.learnOrder(() => true))); page.isOrdered = true; showScore(); await go(200); })()
  $ (showSigns(false), changed("room"), choose({ process: 2 }), document.activeElement.blur())
  $ shot page-steps.png

The diagram.
  $ size 1300 900
  $ (showSigns(true), chooseNothing(), showTab("diagram"), go(212)).then(() => until(isLearnt))
  $ shot page-diagram.png

Plots by night.
  $ size 1200 760 dark
  $ (showTab("plots"), puts(programs.plotted, { input: "HEAT: 12 13 12 14 15 30 16 15 17 19 22 24 26 27 27 26 24 22 19 17 15 14 12 12\n" }))
  $ until(() => !!page.run.timeline.order)
  $ (at("toast").replaceChildren(), document.activeElement.blur(), page.run.eventOf(2, 13).then(go))
  $ shot page-plots.png

A deadlock, and a phone.
  $ size 1200 760
  $ (showTab("waits"), puts(example("small-buffer").program.replace("DONE, 3)", "DONE, 2)")))
  $ (at("toast").replaceChildren(), document.activeElement.blur())
  $ shot page-deadlock.png
  $ size 390 800 dark
  $ shot page-phone.png

The picture alone.
  $ size 1024 640
  $ (showAlone(true), shows("alternating-bit")).then(() => go(20)).then(() => until(() => !!page.run.timeline.order))
  $ (at("toast").replaceChildren(), document.activeElement.blur())
  $ shot page-alone.png
  $ showAlone(false)
