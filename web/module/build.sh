#!/usr/bin/env bash
# Makes web/qbf.wasm of the crate qbf_web, which is proved on the way.
#
# usage: web/module/build.sh [OUT]
#
# The kit has no heap for WebAssembly. So the crate is proved and lowered to an LLVM module for x86-64, as any static
# library. This script keeps that module, names the other machine in it, and has the kit's clang compile it and the
# kit's linker link it with the heap of heap.c. narrow.py then cuts its addresses to 32 bits, for all browsers.
# docs/BROWSER.md says what of this is proved.
set -eu
here=$(cd "$(dirname "$0")" && pwd)
out=${1:-$here/../qbf.wasm}
kit=$(dirname "$(dirname "$(readlink -f "$(command -v rt)")")")
clang=$kit/toolchain/bin/clang
room=$(mktemp -d)
trap 'rm -rf "$room"' EXIT

# linked FOLDER NAME..: links to all that a folder of the kit has, but for these names.
linked() {
  local it name
  mkdir -p "$room/kit/$1"
  for it in "$kit/$1"/*; do
    ln -s "$it" "$room/kit/$1/"
  done
  for name in "${@:2}"; do
    rm -f "$room/kit/$1/$name"
  done
}

# A kit by links whose clang keeps the module that it is given. Its `rt` is a copy, since it looks for the kit where it
# stands itself.
linked . bin toolchain
linked bin rt rtlib.py
cp "$kit"/bin/rt "$kit"/bin/rtlib.py "$room/kit/bin/"
linked toolchain bin
linked toolchain/bin clang
cat > "$room/kit/toolchain/bin/clang" <<END
#!/bin/sh
for it; do
  case \$it in *.bc) cp "\$it" "$room/module.bc" ;; esac
done
exec "$clang" "\$@"
END
chmod +x "$room/kit/toolchain/bin/clang"
crate=$here/../../crates/qbf_web
rm -f "$crate/out/libqbf_web.a"
"$here/../../tools/prove" qbf_web
(cd "$crate" && "$room/kit/bin/rt" lib)

# Both machines have pointers of 64 bits, and the same sizes and alignments. So no other line differs than those that
# name the machine.
"$clang" --target=x86_64-unknown-linux-gnu -S -emit-llvm -O1 -Xclang -disable-llvm-passes -x ir "$room/module.bc" \
  -o "$room/x86.ll"
machine='"no-builtin-bcmp" "no-builtin-memcmp" "no-builtin-strlen" "target-cpu"="lime1"'
layout="e-m:e-p:64:64-p10:8:8-p20:8:8-i64:64-i128:128-n32:64-S128-ni:1:10:20"
sed -e "s/^target datalayout.*/target datalayout = \"$layout\"/" \
  -e 's/^target triple.*/target triple = "wasm64-unknown-unknown"/' \
  -e '/^attributes/s/ "probe-stack"="[^"]*"//; /^attributes/s/ "stack-probe-size"="[^"]*"//' \
  -e "/^attributes/s/\"target-cpu\"=\"[^\"]*\"/$machine/" \
  -e 's/^define \(.* @qbf_run(.*)\) #/define \1 "wasm-export-name"="qbf_run" #/' \
  "$room/x86.ll" > "$room/wasm.ll"

# compile FLAG..: with the words by which the kit compiles for wasm64.
compile() {
  "$clang" --target=wasm64-unknown-unknown -mcpu=lime1 -mllvm -expand-div-rem-bits=64 \
    -mllvm -expand-fp-convert-bits=64 -ffunction-sections -fdata-sections -mllvm -trap-unreachable \
    -mllvm -disable-machine-licm -mllvm -disable-postra-machine-licm -mllvm -sink-common-insts=false \
    --no-default-config -no-canonical-prefixes -Werror -c "$@"
}
compile -O3 -x ir "$room/wasm.ll" -o "$room/qbf.o"
compile -O2 -fwrapv -ffreestanding -fno-builtin -nostdinc -x c "$here/heap.c" -o "$room/heap.o"
"$kit/toolchain/bin/llvm-ar" rcs "$room/libqbf.a" "$room/qbf.o" "$room/heap.o"
"$kit/bin/rattle-link" --target wasm64-unknown-unknown --toolchain "$kit/toolchain" --stack 8388608 \
  -o "$room/qbf.wasm" "$room/libqbf.a"
python3 "$here/narrow.py" "$room/qbf.wasm" "$room/narrow.wasm"
mv "$room/narrow.wasm" "$out"
