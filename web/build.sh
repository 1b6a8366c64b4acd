#!/usr/bin/env bash
# Makes the page, release/kahn.html, and release/page.sha256, which says of which sources it is. The crates below kahn_web have to be
# proved and built, as `rt check` in crates/kahn_web or a run of the gate leaves them; that done it takes a minute or two.
#
#   build.sh [OUT]      OUT: another folder for the page and its hashes
#
# The library is proved and lowered for x86-64, since the toolchain has no heap for wasm64. The LLVM module that its clang is given is
# kept, named for WebAssembly by retarget.py, and compiled and linked with support.c.
set -eu
here=$(CDPATH='' cd -- "$(dirname -- "${BASH_SOURCE[0]}")" && pwd)
top=$(dirname "$here")
source "$here/page.sh"
to=${1:-$top/release}
command -v rt > /dev/null || { echo "build.sh: the Rattle toolchain (rt) is not on the path" >&2; exit 1; }
kit=$(dirname "$(dirname "$(readlink -f "$(command -v rt)")")")
clang=$kit/toolchain/bin/clang
out=$top/web/out
crate=kahn_web

# A toolchain whose clang keeps the module that it compiles.
tools=$out/toolchain
mkdir -p "$tools/bin"
ln -sfn "$kit/toolchain/lib" "$tools/lib"
for it in llvm-ar ld.lld rattle-x64; do ln -sf "$kit/toolchain/bin/$it" "$tools/bin/$it"; done
printf '#!/bin/sh\ncp module.bc "%s"\nexec "%s" "$@"\n' "$out/$crate.bc" "$clang" > "$tools/bin/clang"
chmod +x "$tools/bin/clang"

# The words of `rt lib`, but for the toolchain.
words=(--extern "std=$kit/rlibs/std.rlib" -L "dependency=$kit/rlibs")
for it in $(sed -n "s/^$crate staticlib://p" "$top/crates.txt"); do
  if [ -d "$top/crates/$it" ]; then
    [ -e "$top/crates/$it/out/rlib/$it.rlib" ] || { echo "build.sh: crates/$it isn't built: run \`rt check\` in crates/$crate first" >&2; exit 1; }
    words+=(--extern "$it=$top/crates/$it/out/rlib/$it.rlib")
  else
    words+=(--extern "$it=$kit/rlibs/$it.rlib")
  fi
done
for it in "$top"/crates/*/out/rlib; do words+=(-L "dependency=$it"); done
cd "$top/crates/$crate"
mkdir -p out
if ! "$kit/bin/rattle" build --crate-name "$crate" src/lib.rt "${words[@]}" --antt-project "$kit/rattle/logic/antt-project.json" \
  --logic-built "$kit/logic_built" --links "$crate=" --crate-type staticlib --jobs 1 --toolchain "$tools" --backend llvm \
  --incremental out/incremental -o "$out/lib$crate.a" > "$out/log" 2>&1; then
  tail -n 20 "$out/log" >&2
  exit 1
fi

cd "$out"
"$clang" --target=x86_64-unknown-linux-gnu -x ir "$crate.bc" -S -emit-llvm -Xclang -disable-llvm-passes -o "$crate.x86.ll"
python3 "$here/retarget.py" "$crate.x86.ll" "$crate.ll"
flags=(--target=wasm32-unknown-unknown --no-default-config -ffunction-sections -fdata-sections -Os -mbulk-memory)
"$clang" "${flags[@]}" -mllvm -expand-div-rem-bits=64 -x ir "$crate.ll" -c -o "$crate.o"
"$clang" "${flags[@]}" -ffreestanding -nostdinc -Wall -Werror -x c "$here/support.c" -c -o support.o
exports=$(sed -nE 's/^define [^"]*@([a-z_0-9]+)\(.*/--export=\1/p' "$crate.ll")
# shellcheck disable=SC2086
"$tools/bin/ld.lld" -flavor wasm -mwasm32 --no-entry --stack-first -z stack-size=1048576 --gc-sections --strip-all \
  -O2 --compress-relocations \
  --max-memory=1073741824 $exports -o "$crate.wasm" "$crate.o" support.o
# Debian's binaryen, if it is there, makes the module smaller by a twentieth.
if command -v wasm-opt > /dev/null; then
  wasm-opt -Os --enable-bulk-memory --enable-mutable-globals --enable-sign-ext "$crate.wasm" -o "$crate.wasm"
fi
python3 "$here/page.py" "$crate.wasm" kahn.html
mv kahn.html "$to/kahn.html"
page_lines "$to" > "$to/page.sha256"
ls -l "$to/kahn.html"
