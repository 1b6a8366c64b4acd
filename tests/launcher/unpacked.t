What was unpacked is looked at each time.

A first run.
  $ make_tree; given ./kahn
  RIGHT kahn TREE/release/out/kahn

Another program.
  $ given ./kahn_draw
  RIGHT kahn_draw TREE/release/out/kahn_draw

A program that was overwritten.
  $ tells "PLANTED kahn" "$out/kahn"; given ./kahn
  RIGHT kahn TREE/release/out/kahn

An empty program.
  $ : > "$out/kahn"; given ./kahn
  RIGHT kahn TREE/release/out/kahn

A link in its place.
  $ mv "$out/kahn" moved; ln -s "$PWD/moved" "$out/kahn"; given ./kahn; [ ! -L "$out/kahn" ] || echo LINK
  RIGHT kahn TREE/release/out/kahn

A folder that all can write.
  $ chmod 777 "$out"; given ./kahn; chmod 755 "$out"; rm -r "$home/.cache"
  RIGHT kahn HOME/.cache/kahn/HASH/kahn

A program that all can write.
  $ chmod 777 "$out/kahn"; given ./kahn; others "$out"
  RIGHT kahn TREE/release/out/kahn

The umask 000.
  $ fresh; given bash -c 'umask 000; ./kahn'; others "$out"
  RIGHT kahn TREE/release/out/kahn

Eight first runs, and what they leave. A run may have opened a file that another one then replaces by the same.
  $ fresh; for _ in 1 2 3 4 5 6 7 8; do given ./kahn & done | sed 's/ (deleted)$//' | sort | uniq -c | tr -s ' '
   8 RIGHT kahn TREE/release/out/kahn
  $ find "$out" -type f -not -name sources -printf '%f\n'
  kahn

Another folder in its place, put there between the look at it and the start.
  $ mkdir swap planted; tells "PLANTED kahn" planted/kahn
  > printf '#!/bin/sh\nhash=$(/usr/bin/sha256sum "$@")\nif [ "$(readlink /proc/$$/fd/0)" = "%s/kahn" ] && [ -e "%s/planted" ]; then mv "%s" "%s/aside"; mv "%s/planted" "%s"; fi\necho "$hash"\n' "$out" "$PWD" "$out" "$PWD" "$PWD" "$out" > swap/sha256sum
  > chmod 755 swap/sha256sum; mine swap planted .; given PATH="$PWD/swap:/usr/bin:/bin" ./kahn
  RIGHT kahn WORK/aside/kahn
  $ rm -r "$out"; mv aside "$out"

A pipe in the place of the notes and of the program.
  $ fresh; mkdir -p "$out"; mkfifo "$out/sources" "$out/kahn"; chmod 755 "$out/kahn"; mine "$out"; given timeout 20 ./kahn
  RIGHT kahn TREE/release/out/kahn

Standard input is the program's, and may be closed.
  $ cat > twin.sh << 'E'
  > top=$PWD; source release/program.sh; program=/usr/bin/$1; hold /usr/bin; shift; start "$@"
  > E
  $ chmod 644 twin.sh; echo given | (cd "$tree" && bash "$OLDPWD/twin.sh" cat)
  given
  $ (cd "$tree" && bash "$OLDPWD/twin.sh" sh -c 'for at in 0 1 2 3 10 11 12 13 14; do [ ! -e /proc/$$/fd/$at ] || echo $at; done' <&- 3<&- 10<&- 11<&- 12<&- 13<&- 14<&-)
  1
  2

A folder in the place of the notes.
  $ rm "$out"/*; mkdir "$out/sources"; mine "$out"; given ./kahn
  RIGHT kahn TREE/release/out/kahn

Variables of xz, and options of bash.
  $ fresh; given XZ_DEFAULTS=--memlimit=1 XZ_OPT=-t ./kahn
  RIGHT kahn TREE/release/out/kahn
  $ fresh; given SHELLOPTS=noglob BASHOPTS=failglob ./kahn
  RIGHT kahn TREE/release/out/kahn

No xz, and a module in the folder.
  $ fresh; given env -C "$PWD/evil" PATH="$PWD/tools" "$tree/kahn"
  RIGHT kahn TREE/release/out/kahn

A damaged release.
  $ mv "$tree/release/kahn_live.xz" live.xz; head -c 50 live.xz > "$tree/release/kahn_live.xz"; given ./kahn_live
  kahn_live: release/kahn_live.xz can't be unpacked: Unexpected end of input
  [5]

Another program in the release.
  $ xz -0c "$RIGHT" > "$tree/release/kahn_live.xz"; given ./kahn_live
  kahn_live: the program in release/kahn_live.xz isn't the one that was released
  [5]
