#!/bin/sh
# Prints the bytes of stack that each function of a program (`bench` if none is named) needs at -O3 on x86-64, the largest first. What a call needs is the sum along its
# deepest chain of functions; a function that is not listed was inlined.
#   compare/bench/stack.sh [PROGRAM]
set -e
here=$(cd "$(dirname "$0")" && pwd -P)
home=${RATTLE_HOME:-$(cd "$(dirname "$(readlink -f "$(command -v rt)")")/.." && pwd -P)}
clang=$home/on/$(uname -m)/toolchain/bin/clang
room=$(mktemp -d)
trap 'rm -rf "$room"' EXIT
"$here/module.sh" "${1:-bench}" "$room/module.bc"
(cd "$room" && "$clang" --target=x86_64-unknown-linux-gnu -c -x ir module.bc -o module.o -O3 -fstack-usage -Xclang -fmerge-functions -mllvm -mergefunc-use-aliases 2>said) || { cat "$room/said"; exit 1; }
sed 's/^[^\t]*:\([^:\t]*::[^\t]*\)\t\([0-9]*\).*/\2 \1/; s/^[^\t]*:\([^:\t]*\)\t\([0-9]*\).*/\2 \1/' "$room/module.su" | sort -rn
