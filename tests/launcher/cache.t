If the tree can't be written, a cache of the user's own is taken, or none.

The cache.
  $ make_tree; chmod a-w "$tree/release"; given ./kahn
  RIGHT kahn HOME/.cache/kahn/HASH/kahn

A program of the cache that was overwritten.
  $ for it in "$home"/.cache/kahn/*/kahn; do echo PLANTED > "$it"; done; given ./kahn
  RIGHT kahn HOME/.cache/kahn/HASH/kahn

No home.
  $ given env -u HOME ./kahn
  kahn: it can't be unpacked: release/out: Permission denied; XDG_CACHE_HOME names another place
  [5]

A cache without a root.
  $ given XDG_CACHE_HOME=tmp ./kahn
  kahn: it can't be unpacked: release/out: Permission denied; XDG_CACHE_HOME names another place
  [5]

A cache in a folder that all can write.
  $ mkdir -m 777 everybody; given XDG_CACHE_HOME="$PWD/everybody" ./kahn
  kahn: it can't be unpacked: release/out: Permission denied; WORK/everybody/kahn: it isn't yours, or others may write it; XDG_CACHE_HOME names another place
  [5]

A cache in a folder such as /tmp.
  $ chmod 1777 everybody; rm -rf everybody/kahn; given XDG_CACHE_HOME="$PWD/everybody" ./kahn
  RIGHT kahn WORK/everybody/kahn/HASH/kahn

A cache that all can write.
  $ chmod 777 "$home/.cache/kahn"; given ./kahn
  kahn: it can't be unpacked: release/out: Permission denied; HOME/.cache/kahn: it isn't yours, or others may write it; XDG_CACHE_HOME names another place
  [5]

A link to a folder of one's own.
  $ rm -rf "$home/.cache"; mkdir disk; mine disk; ln -s "$PWD/disk" "$home/.cache"; given ./kahn
  RIGHT kahn WORK/disk/kahn/HASH/kahn

The same in a folder that all can write, where another can have made the link.
  $ chmod 777 "$home"; given ./kahn; chmod 755 "$home"
  kahn: it can't be unpacked: release/out: Permission denied; HOME/.cache/kahn: it isn't yours, or others may write it; XDG_CACHE_HOME names another place

A file in the place of the cache.
  $ rm "$home/.cache"; : > "$home/.cache"; given ./kahn
  kahn: it can't be unpacked: release/out: Permission denied; HOME/.cache/kahn: Not a directory; XDG_CACHE_HOME names another place
  [5]
