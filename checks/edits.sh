#!/usr/bin/env bash
# Tries the must-fail edits of checks/edits in a copy of the crates, over what checks of them kept: the prover has to refuse each. The
# last line says how many it refused.
#
#   edits.sh [CRATE ..]      those of these crates; without names, of all that have some
set -eu
top=$(CDPATH='' cd -- "$(dirname -- "${BASH_SOURCE[0]}")/.." && pwd)
command -v rt > /dev/null || { echo "edits.sh: the Rattle toolchain (rt) is not on the path" >&2; exit 5; }
cd "$top/checks/edits"
[ $# -gt 0 ] || set -- *
mkdir -p "$top/out"
copy=$(mktemp -d -p "$top/out")
trap 'rm -rf "$copy"' EXIT
cp -al "$top/crates" "$top/crates.txt" "$top/HANDLES" "$copy"
for crate in "$@"; do
  rm -rf "$copy/crates/$crate/must-fail" "$copy/crates/$crate/out"
  cp -r "$top/checks/edits/$crate" "$copy/crates/$crate/must-fail"
  [ ! -d "$top/crates/$crate/out" ] || cp -a "$top/crates/$crate/out" "$copy/crates/$crate"
done
cd "$copy"
rt must-fail "$@"
