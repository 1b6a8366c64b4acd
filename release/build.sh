#!/usr/bin/env bash
# Proves and builds programs of these sources, each to crates/NAME/out/NAME, and writes down beside it of which sources it is: then ./NAME
# and install.sh take it. It wants the Rattle toolchain; from nothing it takes about three quarters of an hour by four processors, in
# 8 GB.
#
#   build.sh [NAME ..]      these programs; without names all of them
set -eu
top=$(CDPATH='' cd -- "$(dirname -- "${BASH_SOURCE[0]}")/.." && pwd)
source "$top/release/program.sh"
command -v rt > /dev/null || { echo "build.sh: the Rattle toolchain (rt) is not on the path" >&2; exit 5; }
[ $# -gt 0 ] || set -- "${programs[@]}"
log=$(mktemp)
read_sources
of=$standing
for name in "$@"; do
  is_program "$name" || { echo "build.sh: there is no program $name" >&2; exit 2; }
  echo "$name: is proved and built" >&2
  if ! (cd "$top/crates/$name" && rt run -- --help) < /dev/null > "$log" 2>&1; then
    tail -n 20 "$log" >&2
    echo "$name: the build failed; the whole of what it said is in $log" >&2
    exit 5
  fi
  stamp "$name" "$of" || exit 5
  echo "crates/$name/out/$name"
done
rm -f "$log"
