CDPATH leads to no other tree, and links to this one.

CDPATH.
  $ make_tree; mkdir -p to links elsewhere/tree/release elsewhere/release; mine to
  > echo 'echo PLANTED; exit' | tee elsewhere/tree/release/program.sh > elsewhere/release/program.sh
  > given bash -c 'cd .. && CDPATH=$PWD/elsewhere bash tree/kahn'
  RIGHT kahn TREE/release/out/kahn

CDPATH and install.sh.
  $ given bash -c 'cd .. && CDPATH=$PWD/elsewhere bash tree/install.sh to' | head -n 1
  WORK/to/bin/kahn

A folder like an option.
  $ ln -s tree ./-tree; given bash -c 'cd .. && bash -- -tree/kahn'
  RIGHT kahn TREE/release/out/kahn

A folder like an option and install.sh.
  $ given bash -c 'cd .. && bash -- -tree/install.sh to' | head -n 1
  WORK/to/bin/kahn

CDPATH and the scripts of release/.
  $ given CDPATH="$PWD/elsewhere" bash release/deb.sh | tail -n 1 | cut -d : -f 1
  release/kahn.html isn't of these sources
  [1]
  $ given CDPATH="$PWD/elsewhere" bash release/make.sh | cut -d , -f 1
  crates/kahn/out/kahn isn't there
  [1]
  $ given CDPATH="$PWD/elsewhere" bash release/build.sh
  build.sh: the Rattle toolchain (rt) is not on the path
  [5]

The page: that of the release, if it has its hash, and no other one beside the tree.
  $ mkdir -p {tree/,}share/kahn; echo PLANTED | tee tree/share/kahn/kahn.html > share/kahn/kahn.html; given ./kahn_page
  TREE/release/kahn.html
  $ echo more >> "$tree/release/kahn.html"; given ./kahn_page
  kahn_page: TREE/release/kahn.html isn't the page that was released: release/page.sha256 has another hash
  [1]
  $ rm "$tree/release/kahn.html"; given ./kahn_page
  kahn_page: there is no kahn.html for TREE
  [1]

A link of another name.
  $ ln -s "$tree/kahn_draw" links/draw; given "$PWD/links/draw"
  RIGHT kahn_draw TREE/release/out/kahn_draw
