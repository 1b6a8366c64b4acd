# shellcheck shell=bash
# Sourced by kahn, by install.sh and by the scripts here, with top set to the top of the repository: finds and starts the programs.
#
# A program is taken only if it is of the sources that are here, by their hash, and has the hash that was written down of it: in
# release/programs.sha256, or for a program that was built here in crates/NAME/out/NAME.sha256. Both are compared each time. The program
# and its folder belong to the user, to root or to the owner of these scripts, and nobody else may write them. All this is asked of an
# open folder, and the program is started from that: its path may lead elsewhere by then.
set +f
shopt -u failglob nullglob
: "${top:?}"
programs=(kahn kahn_live kahn_draw kahn_explain)

# The folder for what can't be kept in release/out: none where nothing tells which one is the user's own.
cache=${XDG_CACHE_HOME:-${HOME:+$HOME/.cache}}
case $cache in
  /*) cache+=/kahn ;;
  *) cache= ;;
esac

# is_program NAME: whether one of the programs has this name.
is_program() {
  local name
  for name in "${programs[@]}"; do
    [ "$name" = "$1" ] && return
  done
  return 1
}

# pages: the manual pages, the completions, the scripts, and the page with what tells its place, one a line: its file here, and where it stands
# below a prefix.
pages() {
  local name
  for name in "${programs[@]}"; do
    echo "docs/man/$name.1 share/man/man1/$name.1"
    echo "editors/completions/kahn.bash share/bash-completion/completions/$name"
    echo "editors/completions/$name.fish share/fish/vendor_completions.d/$name.fish"
  done
  echo "docs/man/kahn.7 share/man/man7/kahn.7"
  for name in kahn_page kahn_test kahn_build; do
    echo "docs/man/$name.1 share/man/man1/$name.1"
    echo "$name bin/$name"
  done
  for name in kahn_test kahn_build; do
    echo "editors/completions/kahn.bash share/bash-completion/completions/$name"
    echo "editors/completions/$name.fish share/fish/vendor_completions.d/$name.fish"
  done
  echo "release/kahn.html share/kahn/kahn.html"
  echo "editors/completions/_kahn share/zsh/site-functions/_kahn"
}

# What find is asked of a file: whether it is a source. The toolchain reads only files of these endings; editors leave others beside them.
is_source=(! -type d \( -name HANDLES -o -name crates.txt -o -name '[!.#]*.rt' -o -name '[!.#]*.antt' \))

# find_sources WORD..: find with these words, for every source that the programs are built from.
find_sources() (
  cd -- "$top" && exec find HANDLES crates.txt crates/*/src crates/*/specs crates/*/proofs "${is_source[@]}" "$@"
)

# sources: every source with its hash, one a line.
sources() (
  cd -- "$top" && find_sources -print0 | LC_ALL=C sort -z | xargs -0 sha256sum
)

# note WORD..: these words, and what the file system says of each source and of the list of those of the release. The time of the last
# change can't be set back, so this differs once one was changed, whatever other time it has.
note() (
  echo "$*"
  cd -- "$top" && exec find release/sources.sha256 HANDLES crates.txt crates/*/src crates/*/specs crates/*/proofs \
    \( -name sources.sha256 -o "${is_source[@]}" \) -printf '%p %s %i %C@\n' 2> /dev/null
)

# hash_of FILE: sets hash to the hash of the file, or to nothing.
hash_of() {
  hash=
  read -r hash _ < <(sha256sum 2> /dev/null < "$1") || true
}

# is_ours PLACE PATH..: whether each of these paths is there, is no link, belongs to the user, to root or to the owner of these scripts, and
# can't be written by others, except a folder in which nobody can replace what is another's (/tmp). PLACE is where they are: if that is in
# the cache, the folders that lead there are asked too. The last of these may be a link if only the same can have made it.
is_ours() {
  local owner=$EUID marks place=$1 above=${cache%/*}
  shift
  [ -O "$top/release/program.sh" ] || owner=$(find "$top/release/program.sh" -printf %U)
  local theirs=(\( -uid 0 -o -uid "$EUID" -o -uid "$owner" \))
  case $place in
    "${cache:-none}"*)
      set -- "$above/." "$cache" "$@"
      [ ! -L "$above" ] || [ -n "$(find "${above%/*}/." -prune "${theirs[@]}" ! -perm /022 -print 2> /dev/null)" ] || return
      ;;
  esac
  read -r marks < <(find "$@" -prune "${theirs[@]}" \( ! -perm /022 -o -type d -perm -1000 \) -printf . 2> /dev/null) || true
  [ ${#marks} = $# ]
}

# hold FOLDER: sets held to a descriptor of the folder, so that it is the same one from here on, wherever its path leads.
hold() {
  [ -z "${held-}" ] || exec {held}<&-
  held=
  [ -d "$1" ] && command exec {held}< "$1"
} 2> /dev/null

# is_right PROGRAM HASH [FILE]: whether this is a program with this hash, and ours, and so is FILE beside it. The descriptor held is of its
# folder then.
is_right() {
  local at
  hold "${1%/*}" || return
  at=/proc/self/fd/$held/${1##*/}
  [ -f "$at" ] && [ -x "$at" ] && is_ours "$1" "${at%/*}/." "$at" ${3:+"${at%/*}/$3"} && hash_of "$at" && [ "${hash:-none}" = "$2" ]
}

# start WORD..: starts the program that was found, with these words, from the folder that was looked at. The program gets no descriptor of
# it: bash keeps what was the standard input before a group where no program gets it, so the folder has to be that for a moment.
start() {
  local input=
  [ ! -e /proc/self/fd/0 ] || exec {input}<&0
  exec <&"$held"
  if [ -n "$input" ]; then { start_from "$@"; } <&"$input"-; else { start_from "$@"; } <&-; fi
}

# start_from WORD..: the same, in that group. If bash keeps no such descriptor, the program gets the first one.
start_from() {
  local at=10
  until [ "$at" != "$held" ] && [ "/proc/self/fd/$at" -ef "/proc/self/fd/$held" ] || [ "$at" = 1024 ]; do at=$((at + 1)); done
  if [ "$at" = 1024 ]; then at=$held; else exec {held}<&-; fi
  exec -a "$program" "/proc/self/fd/$at/${program##*/}" "$@"
}

# keep FOLDER NAME MODE [HASH]: what is read becomes this file, once it is whole and has the hash. Otherwise it prints why not, and gives 1,
# or 3 if only the hash isn't right.
keep() (
  umask 022
  export LC_ALL=C
  me=$BASHPID
  # processes are told apart by their numbers only within one container
  room=$(readlink /proc/self/ns/pid) room=${room//[!0-9]/}
  # says WHY: the last words of what a command said, which are those of the system.
  says() {
    why=${1##*: }
    echo "${why:-it was not written as a whole}"
    exit 1
  }
  why=$(mkdir -p -- "$1" 2>&1 && cd -P -- "$1" 2>&1) || says "$why"
  cd -P -- "$1" 2> /dev/null || says "it is gone"
  is_ours "$1" . || says "it isn't yours, or others may write it"
  # what one that was killed has left
  for part in "./.$2.$room".[0-9]*.??????; do
    process=${part#"./.$2.$room."}
    [ -e "/proc/${process%.*}/exe" ] || rm -f -- "$part"
  done
  part=$(mktemp -- "./.$2.$room.$me.XXXXXX" 2>&1) || says "$part"
  trap 'rm -f -- "$part"' EXIT
  why=$({ cat > "$part"; } 2>&1 && chmod "$3" "$part" 2>&1) || says "$why"
  hash_of "$part"
  [ -n "$hash" ] || says "it was removed at once"
  [ "${4-$hash}" = "$hash" ] || exit 3
  [ "$3" != 755 ] || [ -x "$part" ] || says "no program may be started from it (noexec)"
  why=$(mv -fT -- "$part" "./$2" 2>&1) || says "$why"
)

# read_sources: sets standing to the hash of what sources says, and released to that of the sources of the release. They are read anew
# only where the file system tells of a change since they were last, which is noted in the file `sources` of release/out or of the cache.
read_sources() {
  local folder before
  for folder in "$top/release/out" ${cache:+"$cache"}; do
    if [ -f "$folder/sources" ] && [ -O "$folder/sources" ] && read -r standing released < "$folder/sources" \
      && note "$standing" "$released" | cmp -s - "$folder/sources" 2> /dev/null; then return; fi
  done
  before=$(note 2> /dev/null) || before=
  hash_of "$top/release/sources.sha256"
  released=$hash
  hash_of <(sources)
  standing=$hash
  # what was changed a moment ago may be changed again within the same tick of the clock
  if [ -n "$before" ] && [ -z "$(find_sources -newerct '2 seconds ago' -print -quit)" ] && [ "$(note)" = "$before" ]; then
    for folder in "$top/release/out" ${cache:+"$cache"}; do
      printf '%s%s\n' "$standing $released" "$before" | keep "$folder" sources 644 > /dev/null && return
    done
  fi
  return 0
}

# is_released: whether the release was made from the sources that stand here.
is_released() {
  read_sources
  [ "$standing" = "$released" ]
}

# unpacked NAME: the released program on standard output.
unpacked() {
  if command -v xz > /dev/null; then
    XZ_DEFAULTS='' XZ_OPT='' xz -dc "$top/release/$1.xz"
  else
    python3 -I -c 'import lzma, sys; sys.stdout.buffer.write(lzma.open(sys.argv[1]).read())' "$top/release/$1.xz"
  fi
}

# find_unpacked NAME: sets program to the path of the program of release/, whatever sources that is of, and unpacks it where it isn't
# there. Where it can't, it says why, and gives 5.
find_unpacked() {
  local name of wanted=none folder folders why='' said status
  while read -r of name; do
    [ "$name" != "$1" ] || wanted=$of
  done < "$top/release/programs.sha256"
  folders=("$top/release/out" ${cache:+"$cache/${wanted:0:16}"})
  for folder in "${folders[@]}"; do
    program="$folder/$1"
    is_right "$program" "$wanted" && return
  done
  for folder in "${folders[@]}"; do
    program="$folder/$1" status=0
    said=$(unpacked "$1" 2> /dev/null | keep "$folder" "$1" 755 "$wanted") || status=$?
    [ $status != 3 ] || { not_released "$1"; return 5; }
    [ $status != 0 ] || ! is_right "$program" "$wanted" || return 0
    folder=${folder%/"${wanted:0:16}"}
    why+="${folder#"$top/"}: ${said:-it was changed, or could not be opened}; "
  done
  echo "$1: it can't be unpacked: ${why}XDG_CACHE_HOME names another place" >&2
  return 5
}

# not_released NAME: says why what was unpacked isn't the program that was released.
not_released() {
  local said="there is neither xz nor python3"
  if command -v xz > /dev/null || command -v python3 > /dev/null; then said=$(LC_ALL=C unpacked "$1" 2>&1 > /dev/null); fi
  if [ -n "$said" ]; then
    said=${said##*$'\n'}
    echo "$1: release/$1.xz can't be unpacked: ${said##*: }" >&2
  else
    echo "$1: the program in release/$1.xz isn't the one that was released" >&2
  fi
}

# stamp NAME HASH: writes down that the program that was built here is of the sources with this hash, where these still stand here.
stamp() {
  local out="$top/crates/$1/out" hash
  read_sources
  [ "$standing" = "$2" ] || { echo "crates/$1/out/$1: the sources were changed while it was built" >&2; return 1; }
  hash_of "$out/$1"
  chmod go-w "$out" "$out/$1"
  printf '%s  %s\n' "$hash" "$1" "$standing" sources | keep "$out" "$1.sha256" 644 > /dev/null
}

# is_stamped NAME: whether the program that was built here is of the sources with the hash standing. Sets program to its path.
is_stamped() {
  local built of
  program="$top/crates/$1/out/$1"
  [ -f "$program.sha256" ] && { read -r built _ && read -r of _; } 2> /dev/null < "$program.sha256" && [ "$of" = "$standing" ] \
    && is_right "$program" "$built" "$1.sha256"
}

# find_built NAME: sets program to the path of the program of that name: the one that was built here, or else the released one, where
# they are of these sources. It builds nothing: else it says what to run, and gives 5.
find_built() {
  [ -e /proc/self/fd ] || { echo "$1: there is no /proc/self/fd, which this launcher needs" >&2; return 5; }
  read_sources
  is_stamped "$1" && return
  if [ "$standing" = "$released" ]; then
    find_unpacked "$1"
    return
  fi
  echo "$1: these sources have no release: bash release/build.sh proves and builds the programs;" \
    "in a whole clone, git checkout \$(git log -1 --format=%h release/sources.sha256) has some" >&2
  return 5
}
