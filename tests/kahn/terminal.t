Paths and words drive no terminal: here an escape, a line feed, a right-to-left override and a zero width space.

A file of that name, and one that isn't there.
  $ name=$'a\x1b[31m\n\u202e\u200b.kahn'; echo begin end > "$name"
  > for it in live draw explain; do kahn_$it "$name" 2>&1 | head -n 2; kahn_$it "no$name" 2>&1 | head -n 1; done | sed 's/error: .*/error/'
  kahn: 1:7: this cannot stand here
  kahn_explain a�[31m���.kahn says more
  kahn: cannot read noa�[31m���.kahn
  kahn: 1:7: this cannot stand here
  kahn_explain a�[31m���.kahn says more
  kahn: cannot read noa�[31m���.kahn
  a�[31m���.kahn:1:7: error
   1 | begin end
  kahn: cannot read noa�[31m���.kahn

What kahn says of it is byte for byte.
  $ name=$'no\x1b[31m\n\u202e\u200b.kahn'; kahn "$name" 2>&1 | cmp - <(echo "kahn: cannot read $name")

Words of a line.
  $ printf 'A: 1\u202e2\nA\u200b: 1\n' | kahn_live examples/double.kahn 2>&1
  examples/double.kahn: input line 1: not a value: `1..`; in it stands a character that isn't of ASCII
  examples/double.kahn: input line 2: not a name and a colon: `..`; in it stands a character that isn't of ASCII
  end 1 double: waits on A after 1
  finished 1
  [1]
