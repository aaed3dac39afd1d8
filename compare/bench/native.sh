#!/bin/sh
# Compiles a program (`bench` if none is named) for this machine, where the kit's compiler makes x86-64 programs alone: the LLVM module that the compiler hands to clang
# is compiled again, at -O3, for the processor that this is. The program that the kit makes is another; it is for times without an emulator.
#   compare/bench/native.sh OUT [PROGRAM]
set -e
[ $# -ge 1 ] || { echo "usage: compare/bench/native.sh OUT [PROGRAM]"; exit 2; }
here=$(cd "$(dirname "$0")" && pwd -P)
home=${RATTLE_HOME:-$(cd "$(dirname "$(readlink -f "$(command -v rt)")")/.." && pwd -P)}
clang=$home/on/$(uname -m)/toolchain/bin/clang
room=$(mktemp -d)
trap 'rm -rf "$room"' EXIT
"$here/module.sh" "${2:-bench}" "$room/module.bc"
"$clang" --target=x86_64-unknown-linux-gnu -x ir "$room/module.bc" -S -emit-llvm -Xclang -disable-llvm-passes -o "$room/module.ll"
sed -i -e '/^target datalayout/d' -e '/^target triple/d' -e 's/"target-cpu"="[^"]*"//g; s/"target-features"="[^"]*"//g; s/"tune-cpu"="[^"]*"//g' "$room/module.ll"
"$clang" --target="$(uname -m)-unknown-linux-gnu" -c -x ir "$room/module.ll" -o "$room/module.o" -fPIE -O3 2>"$room/said" || { cat "$room/said"; exit 1; }
cc -O2 -o "$1" "$room/module.o" "$here/arguments.c" -lm
