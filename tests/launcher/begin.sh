# shellcheck shell=bash disable=SC2034,SC2031
# Each command of the sessions here begins with this: a repository of a few sources whose programs say where they stand, with the launcher of
# the folder OF, and a user with a home and little more. What that prints names folders as TREE, HOME and WORK.
set -o pipefail
umask 022
tree=$PWD/tree home=$PWD/home out=$PWD/tree/release/out source=$PWD/tree/crates/kahn/src/main.rt
programs=(kahn kahn_live kahn_draw kahn_explain)

# The user that runs the programs, if that is another one than root. (60002 is one more.)
me=()
[ "$(id -u)" != 0 ] || me=(setpriv --reuid=60001 --regid=60001 --clear-groups --inh-caps=-all --bounding-set=-all)

# mine PATH..: gives them to the user who runs the programs.
mine() {
  [ ${#me[@]} = 0 ] || chown -R 60001:60001 "$@"
}

# given WORD..: what the words print, in the tree, for that user.
given() {
  (cd "$tree" && exec "${me[@]}" env -i PATH=/usr/bin:/bin HOME="$home" "$@" 2>&1 < /dev/null) \
    | sed -E "s#$tree#TREE#g; s#$home#HOME#g; s#$PWD#WORK#g; s#/[0-9a-f]{16}/kahn#/HASH/kahn#; s# (proves and|bash release/build).*##"
}

# waits_for TEST..: runs a test until it holds, for twenty seconds.
waits_for() {
  local end=$((SECONDS + 20))
  until "$@"; do
    [ $SECONDS -lt $end ] || return
    sleep 0.05
  done
}

# tells WORDS FILE: makes the file a program that prints these words, and where it is.
tells() {
  local words
  words=$(printf '%-24s' "$1" | sed 's/ /./2g')
  LC_ALL=C sed "s/THE WORDS THAT IT PRINTS/$words/" "$RIGHT" > "$2" && chmod 755 "$2"
}

# pack: the programs of the release, each of which prints RIGHT, its name and where it is.
pack() {
  local name
  for name in "${programs[@]}"; do
    tells "RIGHT $name" "packed.$name"
    xz -0c "packed.$name" > "$tree/release/$name.xz"
    echo "$(sha256sum < "packed.$name" | cut -d ' ' -f 1)  $name" >> "$tree/release/programs.sha256"
    rm "packed.$name"
  done
}

# make_tree: the repository.
make_tree() {
  local name
  mkdir -p "$tree"/{release,docs,editors,web} "$tree"/crates/kahn/{src,specs,proofs,out} "$home" evil tools
  cp -P "$OF"/kahn* "$OF/install.sh" "$tree"
  cp "$OF"/release/*.sh "$TOP"/release/{kahn.html,page.sha256} "$tree/release"
  cp "$TOP/web/page.sh" "$tree/web"
  cp -r "$TOP/docs/man" "$tree/docs"
  cp -r "$TOP/editors/completions" "$tree/editors"
  for name in HANDLES crates.txt crates/kahn/{src/main.rt,specs/Main.antt,proofs/Main.antt}; do echo "source" > "$tree/$name"; done
  pack
  (top=$tree && source "$tree/release/program.sh" && sources > "$tree/release/sources.sha256")
  echo 'print("PLANTED"); raise SystemExit(1)' > evil/lzma.py
  for name in bash readlink find sha256sum cat mkdir mktemp chmod mv rm sort xargs env python3; do
    ln -s "$(PATH=/usr/bin:/bin command -v "$name")" "tools/$name"
  done
  chmod -R u+w,go-w,a+rX "$tree" "$home"
  mine "$tree" "$home"
}

# fresh: nothing was unpacked or noted.
fresh() {
  chmod -R u+w "$tree"
  rm -rf "$out" "$home/.cache"
}

# others FOLDER: what others may write there.
others() {
  find "$1" -perm /022 ! -type l | sed "s#$PWD#WORK#"
}

# parts: what stands beside the place where a program is unpacked to.
parts() {
  find "$out" -type f -size +0 -not -name sources -not -name kahn 2> /dev/null | grep .
}
no_parts() {
  ! parts > /dev/null
}

# killed SIGNAL: a first run that gets the signal while it unpacks.
killed() {
  printf '#!/bin/sh\necho part\nsleep 100\n' > tools/xz
  chmod 755 tools/xz
  set -m
  given PATH="$PWD/tools:/usr/bin:/bin" ./kahn > /dev/null &
  waits_for parts > /dev/null
  kill -"$1" -- -$!
  wait $! 2> /dev/null
  set +m
  rm tools/xz
}
