The drawing of a network, how many of its arrows cross, and what of it is in sight.

In no example two arrows cross, but of the sorting network, which has no drawing without: of two that compare, both lead to two others.
  $ size 1400 900
  $ allCrossings()
  {"sorting": 1}

Of networks by chance, and of grids: no number of this table may grow.
  $ [1, 2, 3, 4, 5].map((it) => crossingsOf(byChance(30, it)))
  [1, 4, 0, 5, 5]
  $ [1, 2, 3].map((it) => crossingsOf(byChance(100, it)))
  [7, 14, 10]
  $ [3, 5, 11].map((it) => crossingsOf(grid(it)))
  [0, 0, 0]

A small network is in one row, and a long chain in some.
  $ shows("hamming")
  $ [picture.laid.rows.length, arrowsFit(), pictureFits()]
  [1, true, true]
  $ puts(rowOf(20))
  $ [picture.laid.rows.length > 1, arrowsFit(), pictureFits()]
  [true, true, true]

It is larger by keys, and the whole again; a drag moves it, and isn't a press.
  $ document.activeElement.blur()
  $ (globalThis.before = picture.scale, picture.view.isWhole)
  true
  $ void dispatchKey("+")
  $ [picture.scale > 1.2 * before, picture.view.isWhole]
  [true, false]
  $ (globalThis.x = picture.view.x, drags(at("picture"), -40, 0), [picture.view.x > x, page.chosen === NOTHING])
  [true, true]
  $ void dispatchKey("0")
  $ [picture.scale === before, picture.view.isWhole]
  [true, true]
  $ void wheels(at("picture"), -300)
  $ picture.scale > before
  true

What acts is moved into sight while one steps.
  $ puts(rowOf(60))
  $ picture.view.zoom(8)
  $ go(1).then(() => sights(0))
  true
  $ go(page.run.last - 1).then(() => sights(page.moment.mover))
  true

An overview, of a network of more than 40 processes, while a part of it is in sight.
  $ [isShown("#picture .overview"), document.querySelectorAll("#picture .overview rect").length]
  [true, 61]
  $ (picture.view.fit(), isShown("#picture .overview"))
  false

From afar numbers, colours and rings are drawn, and no small letters.
  $ [picture.svg.classList.contains("numbers"), isShown("#picture .title"), isShown("#picture .far")]
  [true, false, true]

Two hundred processes: a step, and from the text to the picture, in four times what a quiet machine takes.
  $ puts(rowOf(200))
  $ stepTime().then((it) => it <= 240 || isBusy() || it)
  true
  $ pictureTime().then((it) => it <= 3200 || isBusy() || it)
  true
  $ shows("squares")
