Programs are of the sources that stand here, whatever their times.

What was changed a moment ago is not noted.
  $ make_tree; is_not_noted() { fresh; touch "$source"; given ./kahn > /dev/null; [ ! -e "$out/sources" ]; }; waits_for is_not_noted

What the file system says of the sources is noted.
  $ fresh; sleep 2.1; given ./kahn; test -s "$out/sources"
  RIGHT kahn TREE/release/out/kahn

A source of the same length and time.
  $ cp -p "$source" before; echo planted | dd of="$source" bs=1 count=6 conv=notrunc status=none; touch -r before "$source"; given ./kahn
  kahn: these sources have no release:
  [5]

The source as it was.
  $ cat before > "$source"; given ./kahn
  RIGHT kahn TREE/release/out/kahn

Another folder of the same name.
  $ cp -r "$tree/crates/kahn/src" src; echo other > src/main.rt; mv "$tree/crates/kahn/src" src.before; mv src "$tree/crates/kahn/src"; given ./kahn
  kahn: these sources have no release:
  [5]

The folder as it was.
  $ rm -r "$tree/crates/kahn/src"; mv src.before "$tree/crates/kahn/src"; given ./kahn
  RIGHT kahn TREE/release/out/kahn

A further source.
  $ echo > "$source crates.rt"; given ./kahn; rm "$source crates.rt"
  kahn: these sources have no release:

What editors leave beside a source is none.
  $ (cd "$tree/crates/kahn/src"; for it in .main.rt.swp main.rt~ '#main.rt#' .DS_Store ._main.rt; do : > "$it"; done; ln -s user@host .#main.rt); given ./kahn
  RIGHT kahn TREE/release/out/kahn

Another list of the release.
  $ echo "crates/kahn/src/a b" >> "$tree/release/sources.sha256"; given ./kahn
  kahn: these sources have no release:
  [5]
