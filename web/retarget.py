"""Names an LLVM module that was lowered for x86-64 for WebAssembly with 32-bit memory instead: retarget.py IN.ll OUT.ll

The module's own code says at which byte each field stands, and never turns a pointer into a number. A pointer keeps its place of eight
bytes, of which it then fills four: its variables and those of a constant are made as wide as before, and a pair with a pointer in it is
read a part at a time.
Code that neither fits is refused.
"""

import re
import sys

read, write = sys.argv[1:]
LAYOUT = "e-m:e-p:32:32-p10:8:8-p20:8:8-i64:64-i128:128-n32:64-S128-ni:1:10:20"
text = open(read, encoding="utf-8").read()
for word in (r"llvm\.x86", r"\basm\b.*sideeffect", r"\bptrtoint\b", r"\binttoptr\b", r"\bx86_fp80\b", r"getelementptr [^,]*\b(?!i8\b)(?:ptr|\{)[^,]*,"):
    if found := re.search(word, text):
        sys.exit(f"retarget.py: no rule for {found[0]}")
text = re.sub(r'^target datalayout = .*', f'target datalayout = "{LAYOUT}"', text, flags=re.M)
text = re.sub(r'^target triple = .*', 'target triple = "wasm32-unknown-unknown"', text, flags=re.M)
text = re.sub(r' "(probe-stack|stack-probe-size|target-cpu|target-features|frame-pointer)"="[^"]*"', "", text)

PAD = "[4 x i8]"
INTO = r"ptr getelementptr \([^()]*\)"
SIZES = {"i1": 1, "i8": 1, "i16": 2, "i32": 4, "i64": 8, "ptr": 8}


def parts(found):
    name, inner, at = found.groups()
    kinds, place, lines, whole = inner.split(", "), 0, [], "poison"
    for i, kind in enumerate(kinds):
        size = SIZES[kind]
        place = (place + size - 1) // size * size
        lines += [f"  {name}.p{i} = getelementptr i8, ptr {at}, i64 {place}", f"  {name}.v{i} = load {kind}, ptr {name}.p{i}, align {size}"]
        to = name if i == len(kinds) - 1 else f"{name}.w{i}"
        lines.append(f"  {to} = insertvalue {{ {inner} }} {whole}, {kind} {name}.v{i}, {i}")
        place, whole = place + size, to
    return "\n".join(lines)


def widened(found):
    name, kinds, values = found.groups()
    kinds = kinds.replace("ptr", f"ptr, {PAD}")
    values = re.sub(INTO, lambda pointer: f"{pointer[0]}, {PAD} zeroinitializer", values)
    return f"{name} = private constant <{{ {kinds} }}> <{{ {values} }}>"


text = re.sub(r"= alloca ptr, align 8", "= alloca i64, align 8", text)
text = re.sub(r"^  (%\S+) = load \{ ([^}]*\bptr\b[^}]*) \}, ptr (%\S+), align \d+$", parts, text, flags=re.M)
text = re.sub(r"^  (%\S+) = ptrtoaddr ptr (%\S+) to i64$", r"  \1.n = ptrtoaddr ptr \2 to i32\n  \1 = zext i32 \1.n to i64", text, flags=re.M)
# A constant with pointers into itself.
text = re.sub(r"^(@\S+) = private constant <\{ ((?:ptr|\[\d+ x i8\]|, )*ptr(?:ptr|\[\d+ x i8\]|, )*) \}> <\{ ([^\n]*) \}>", widened, text, flags=re.M)
narrow = rf"\bptr\b(?!, {re.escape(PAD)}| getelementptr \([^()]*\), {re.escape(PAD)} zeroinitializer| @)"
for word in (r"load \{[^}]*\bptr\b", r"store \{[^}]*\bptr\b", r"alloca [^i\[\n][^\n]*", rf"^@[^\n]*{narrow}[^\n]*"):
    if found := re.search(word, text, re.M):
        sys.exit(f"retarget.py: no rule for {found[0]}")
open(write, "w", encoding="utf-8").write(text)
