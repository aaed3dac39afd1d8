#!/bin/sh
# Keeps the LLVM module that the kit's compiler hands to clang for a program, whose libraries are passed as source: nothing is proved by that.
#   compare/bench/module.sh PROGRAM OUT.bc
set -e
[ $# -eq 2 ] || { echo "usage: compare/bench/module.sh PROGRAM OUT.bc"; exit 2; }
root=$(cd "$(dirname "$0")/../.." && pwd -P)
home=${RATTLE_HOME:-$(cd "$(dirname "$(readlink -f "$(command -v rt)")")/.." && pwd -P)}
own=$home/on/$(uname -m)
[ -x "$own/bin/rattle-cases" ] || { echo "compare/bench/module.sh: this kit has no rattle-cases: the module that its compiler hands to clang is not to be had (native.sh and stack.sh need it)" >&2; exit 2; }
room=$(mktemp -d)
trap 'rm -rf "$room"' EXIT
mkdir -p "$room/tools/bin"
ln -s "$home/toolchain/lib" "$room/tools/lib"
for b in ld.lld llvm-ar qemu-x86_64; do [ ! -e "$own/toolchain/bin/$b" ] || ln -s "$own/toolchain/bin/$b" "$room/tools/bin/$b"; done
cat >"$room/tools/bin/clang" <<END
#!/bin/sh
for word in "\$@"; do
    case \$word in
    -O3) kept=yes ;;
    esac
done
for word in "\$@"; do
    case \$word in
    *.bc) [ -z "\${kept-}" ] || cp "\$word" "$room/module.bc" ;;
    esac
done
exec "$own/toolchain/bin/clang" "\$@"
END
chmod +x "$room/tools/bin/clang"
program=$1 out=$2
set -- --toolchain "$room/tools" --link "$home/lib/libos_c.a" --arg edit --arg 0 --arg 0 "$root/crates/$program/src/main.rt" --crate-name "$program" --lib "std=$home/libs/std/src/lib.rt"
for d in $(sed -n "s/^$program: //p" "$root/crates.txt"); do
    if [ -f "$root/crates/$d/src/lib.rt" ]; then set -- "$@" --lib "$d=$root/crates/$d/src/lib.rt"; else set -- "$@" --lib "$d=$home/libs/$d/src/lib.rt"; fi
done
"$own/bin/rattle-cases" "$@" </dev/null >"$room/said" 2>&1 || true
[ -f "$room/module.bc" ] || { cat "$room/said"; exit 1; }
cp "$room/module.bc" "$out"
