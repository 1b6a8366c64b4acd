What the page opens with, and texts with mistakes.

The examples are whole programs, each with a title; the library has none.
  $ EXAMPLES.filter(([, program]) => !/^\s*(comment[^;]*;\s*)*begin/i.test(program)).concat(groups().filter((it) => it.title === "More"))
  []

A link to a program with a mistake: nothing is shown that isn't there.
  $ open #program=begin+end&input=&bound=7
  $ until(() => at("verdict").className === "refused")
  $ [isShown("#network"), isShown("#transport"), isShown("#values"), isShown("#noInput"), isShown("#inputPane"), isShown("#nothing")]
  [false, false, false, false, false, true]

An input with a mistake is shown, with its program's network, whatever was run before.
  $ shows("squares")
  $ puts(programs.copy, { input: "A: 1 x4" })
  $ [isShown("#inputPane"), isShown("#noInput"), at("inputs").textContent, eachText("#inputInk .error")]
  [true, false, "values of A", ["x4"]]
  $ [eachText("#picture .title"), eachText("#picture .label .name"), isShown("#transport"), isShown("#values")]
  [["1p"], ["A", "B"], false, false]
  $ click #details .place
  $ [document.activeElement.id, at("input").selectionStart]
  ["input", 5]

Both have a mistake: the field of the input is there, and no network.
  $ shows("squares")
  $ puts("begin end", { input: "A: 1 x4" })
  $ [isShown("#inputPane"), isShown("#noInput"), isShown("#network"), at("inputs").textContent]
  [true, false, false, ""]

A file of an input that has a mistake.
  $ shows("squares")
  $ drops("A: 1 x4", "mine.input", () => at("verdict").className === "refused")
  $ [isShown("#inputPane"), eachText("#picture .title"), at("inputs").textContent]
  [true, ["1count", "2square"], "this program has no input channel"]

A link to a program whose input has a mistake, and what is mended is run.
  $ open #program=begin+integer+input+channel+A%3B+integer+output+channel+B%3B+process+p%28integer+in+U%3B+integer+out+W%29%3B+begin+repeat+send+wait%28U%29+on+W+end%3B+p%28A%2C+B%29+end&input=A%3A+1+x&bound=7
  $ until(() => at("verdict").className === "refused")
  $ [isShown("#network"), isShown("#transport"), eachText("#picture .title")]
  [true, false, ["1p"]]
  $ input.replace("A: 1")
  $ until(() => at("verdict").className === "edited")
  $ told()
  ["edited", "Not run yet"]
  $ runTexts().then(() => until(settled))
  $ [isShown("#transport"), isShown("#values"), eachText("#table .past, #table .newest, #table .took")]
  [true, true, ["1", "1"]]
  $ shows("squares")
