install.sh puts what it says where it says, and takes away what it put there.

The umask 077.
  $ make_tree; mkdir -p to folder/bin/kahn link/bin; ln -s nowhere link/bin/kahn; mine to folder link
  > given bash -c "umask 077; bash install.sh $PWD/to" | head -n 1; find to -not -perm -005 -type d
  WORK/to/bin/kahn

What is installed.
  $ given "$PWD/to/bin/kahn_live"
  RIGHT kahn_live WORK/to/bin/kahn_live

A foreign program stays.
  $ echo foreign > to/bin/kahn; given bash install.sh --uninstall "$PWD/to" > /dev/null
  [1]
  $ find to/bin -type f -exec cat {} +
  foreign

Another release takes away what this one installed, and all of it.
  $ rm -r to/bin; given bash install.sh "$PWD/to" > /dev/null; : > "$tree/release/programs.sha256"; given bash install.sh --uninstall "$PWD/to" > /dev/null
  $ find to -type f; rm "$tree/release/programs.sha256"; pack

A folder in the place of a program.
  $ given bash install.sh "$PWD/folder"
  install.sh: WORK/folder/bin/kahn is a folder
  [1]
  $ find folder -type f
  $ given bash install.sh --uninstall "$PWD/folder"
  install.sh: WORK/folder/bin/kahn isn't what was installed, or can't be removed: it stays
  [1]

A link to nothing in the place of a program.
  $ given bash install.sh --uninstall "$PWD/link"
  install.sh: WORK/link/bin/kahn isn't what was installed, or can't be removed: it stays
  [1]
  $ given bash install.sh "$PWD/link" > /dev/null; find link -name nowhere -o -type l

A file that can't be written: none is installed, and what was there stays.
  $ mkdir full; mine full; given bash install.sh "$PWD/full" > /dev/null; tells "OLD kahn" full/bin/kahn; rm full/bin/kahn_live
  > given bash -c "ulimit -f 20; trap '' XFSZ; bash install.sh $PWD/full" > /dev/null; find full/bin -name '.*' -type f; given "$PWD/full/bin/kahn"; ls full/bin
  OLD kahn WORK/full/bin/kahn
  kahn
  kahn_build
  kahn_draw
  kahn_explain
  kahn_page
  kahn_test

An empty prefix.
  $ given bash install.sh ""
  install.sh: the prefix is empty
  [2]

A relative prefix below DESTDIR.
  $ given DESTDIR="$PWD/to" bash install.sh usr
  install.sh: with DESTDIR the prefix begins with /
  [2]

The path that is advised.
  $ given bash -c "cd $PWD/to && bash $tree/install.sh here" | tail -n 1
  WORK/to/here/bin is not on the path: PATH="$PATH:WORK/to/here/bin"
