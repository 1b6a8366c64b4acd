#!/usr/bin/env bash
# Makes the release of these sources: the programs that were proved and built here, compressed, with the hash of each source and of
# each program. `./gate` has to have passed on them before.
#
#   make.sh
set -eu
top=$(CDPATH='' cd -- "$(dirname -- "${BASH_SOURCE[0]}")/.." && pwd)
source "$top/release/program.sh"
read_sources
for name in "${programs[@]}"; do
  is_stamped "$name" || { echo "crates/$name/out/$name isn't there, or isn't known to be of these sources: bash release/build.sh $name" >&2; exit 1; }
done
# a dictionary as large as the program suffices, and with less memory it can be unpacked too
for name in "${programs[@]}"; do xz --lzma2=preset=9e,dict=2MiB -T1 -c "$top/crates/$name/out/$name" > "$top/release/$name.xz"; done
for name in "${programs[@]}"; do (cd "$top/crates/$name/out" && sha256sum "$name"); done > "$top/release/programs.sha256"
sources > "$top/release/sources.sha256"
ls -l "$top"/release/*.xz
