#!/usr/bin/env bash
# Puts the programs on the path, or takes them off it: those that were built here, or those of release/, if they are of these
# sources; and beside them, in PREFIX/share, the page, manual pages and the completions of bash, zsh and fish. It builds nothing.
#
#   install.sh [--uninstall] [PREFIX]      into PREFIX/bin, or from there
#
# The prefix may be given by the variable PREFIX too; without one it is /usr/local. DESTDIR, if it is set, is a folder that
# stands before the prefix, which then begins with /, as a package is made in. Without DESTDIR it writes down what it installs, in
# PREFIX/share/kahn/installed.sha256. --uninstall removes what is still as it was installed; if anything else stands in the place
# of a file, or one can't be removed, it says so and gives 1. If a file can't be written, it installs none.
set -eu
umask 022
top=${BASH_SOURCE[0]}
[[ $top = /* ]] || top=$PWD/${top#./}
top=${top%/*}
source "$top/release/program.sh"
list=share/kahn/installed.sha256

# refuse STATUS WORD..: says why nothing is done.
refuse() {
  echo "install.sh: ${*:2}" >&2
  exit "$1"
}

# files: all that is installed, below the prefix, one a line.
files() {
  printf 'bin/%s\n' "${programs[@]}"
  pages | cut -d ' ' -f 2
}

# listed PATH FILE: the hash of what has this path, and the name of the file below the prefix.
listed() {
  hash_of "$1"
  echo "$hash  $2"
}

# own: hash and name of what install.sh has put there: what it wrote down, and what this release installs.
own() {
  cat -- "$target/$list" 2> /dev/null || true
  sed 's,  ,  bin/,' "$top/release/programs.sha256"
  pages | while read -r page file; do
    listed "$top/$page" "$file"
  done
}

# uninstall: removes each file that is its own, and the list of them once none is left.
uninstall() {
  local file own status=0
  own=$(own)
  for file in $(files); do
    [ -e "$target/$file" ] || [ -L "$target/$file" ] || continue
    if [ -f "$target/$file" ] && [ ! -L "$target/$file" ] && grep -qxF "$(listed "$target/$file" "$file")" <<< "$own" && rm -f -- "$target/$file"; then
      echo "$target/$file"
    else
      echo "install.sh: $target/$file isn't what was installed, or can't be removed: it stays" >&2
      status=1
    fi
  done
  [ $status != 0 ] || rm -f -- "$target/$list"
  rmdir -- "$target/share/kahn" 2> /dev/null || true
  return $status
}

# The files that are written and not yet in their places, each below the prefix; the file itself is beside its place until then.
written=()

# beside FILE: sets part to the path beside the place of a file where it is written first.
beside() {
  part=$target/${1%/*}/.${1##*/}.$$
}

# put MODE FROM FILE [HASH]: writes one of the files beside its place. With a hash only what has that is taken.
put() {
  local part
  beside "$3"
  written+=("$3")
  install -D -m "$1" -T -- "$2" "$part" || exit 1
  [ -z "${4:-}" ] || { hash_of "$part" && [ "$hash" = "$4" ]; } || refuse 1 "$2 was changed while it was installed"
}

# clear_parts: removes what is written and not in its place.
clear_parts() {
  local file part
  for file in "${written[@]}"; do
    beside "$file"
    rm -f -- "$part"
  done
}

# install_all: installs the files, and lists them, once it is known that all programs are there and no folder is in the way, and all of
# them are written.
install_all() {
  local name page file part hash
  { mkdir -p -- "$target/bin" 2> /dev/null && [ -w "$target/bin" ]; } || refuse 1 "$target can't be written; bash install.sh ~/.local wants no rights"
  for file in $(files) "$list"; do
    [ ! -d "$target/$file" ] || refuse 1 "$target/$file is a folder"
  done
  trap clear_parts EXIT
  for name in "${programs[@]}"; do
    find_built "$name" || exit $?
    put 755 "$program" "bin/$name" "$hash"
  done
  while read -r page file; do
    case $file in bin/*) put 755 "$top/$page" "$file" ;; *) put 644 "$top/$page" "$file" ;; esac
  done < <(pages)
  if [ -z "${DESTDIR:-}" ]; then
    put 644 <(for file in "${written[@]}"; do beside "$file"; listed "$part" "$file"; done) "$list"
  fi
  for file in "${written[@]}"; do
    beside "$file"
    # in no folder of its name and through no link
    mv -fT -- "$part" "$target/$file" || exit 1
  done
  for file in $(files); do echo "$target/$file"; done
}

uninstall=false
given=()
for word in "$@"; do
  case $word in
    -h | --help) sed -n '2,/^set/s/^# \{0,1\}//p' "${BASH_SOURCE[0]}"; exit ;;
    --uninstall) uninstall=true ;;
    -*) refuse 2 "$word is not known; --help tells what is" ;;
    *) given+=("$word") ;;
  esac
done
[ ${#given[@]} -le 1 ] || refuse 2 "one prefix is wanted"
prefix=${given[0]-${PREFIX-/usr/local}}
case $prefix in
  '') refuse 2 "the prefix is empty" ;;
  /*) ;;
  *)
    [ -z "${DESTDIR:-}" ] || refuse 2 "with DESTDIR the prefix begins with /"
    prefix=$PWD/$prefix
    ;;
esac
target=${DESTDIR:-}${prefix%/}
if $uninstall; then
  uninstall
  exit
fi
install_all
case :$PATH: in
  *":$target/bin:"*) ;;
  *) [ -n "${DESTDIR:-}" ] || echo "$target/bin is not on the path: PATH=\"\$PATH:$target/bin\"" >&2 ;;
esac
