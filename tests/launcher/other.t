What another user owns is not taken, though it is right. Only root can make such.

A program of another user.
  $ make_tree; given ./kahn > /dev/null; chown 60002 "$out/kahn"; given ./kahn; stat -c %u "$out/kahn"
  RIGHT kahn TREE/release/out/kahn
  60001

A cache of another user.
  $ fresh; chmod a-w "$tree/release"; given ./kahn > /dev/null; chown -R 60002 "$home/.cache/kahn"; given ./kahn
  kahn: it can't be unpacked: release/out: Permission denied; HOME/.cache/kahn: it isn't yours, or others may write it; XDG_CACHE_HOME names another place
  [5]

What another user noted of the sources.
  $ fresh; echo "// more" >> "$source"; read -r hash _ < <(sha256sum < "$tree/release/sources.sha256")
  > given bash -c 'mkdir -m 755 release/out && top=$PWD && source release/program.sh && note "$@" > release/out/sources' bash "$hash" "$hash"
  > chown 60002 "$out/sources"; given ./kahn
  kahn: these sources have no release:
  [5]
