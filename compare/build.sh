#!/bin/sh
# Builds the Rust's side of the comparison: OUT/rust answers scripts, OUT/rust_bench times calls.
#   compare/build.sh FOLDER_OF_THE_RUST OUT
# FOLDER_OF_THE_RUST is src/ of rusty-leveldb 4.0.2. Its texts are taken in unchanged; disk_env.rs and its lib.rs are not used.
# Needs cargo and rustc, a C compiler, and of Debian's packages librust-bytes-dev and librust-snap-dev.
set -e
[ $# -eq 2 ] || { echo "usage: compare/build.sh FOLDER_OF_THE_RUST OUT" >&2; exit 2; }
here=$(cd "$(dirname "$0")" && pwd -P)

# What is missing, as the names of Debian's packages.
missing=''
command -v cargo >/dev/null || missing="$missing cargo"
command -v rustc >/dev/null || missing="$missing rustc"
command -v cc >/dev/null || missing="$missing gcc libc6-dev"
for crate in bytes snap; do
    ls -d /usr/share/cargo/registry/$crate-* >/dev/null 2>&1 || missing="$missing librust-$crate-dev"
done
if [ -n "$missing" ]; then
    echo "compare/build.sh: missing; on Debian: apt-get install --no-install-recommends$missing" >&2
    exit 2
fi
[ -f "$1/version_set.rs" ] || { echo "compare/build.sh: no version_set.rs in $1: it is to be src/ of rusty-leveldb 4.0.2" >&2; exit 2; }

rust=$(cd "$1" && pwd -P)
mkdir -p "$2"
out=$(cd "$2" && pwd -P)
rm -rf "$out/driver"
cp -R "$here/driver" "$out/driver"
for f in "$rust"/*.rs; do
    case $(basename "$f") in lib.rs | disk_env.rs) continue ;; esac
    cp "$f" "$out/driver/src/"
done
chmod -R u+w "$out/driver"
cd "$out/driver"
cargo build --offline --quiet --release
cp target/release/rust "$out/rust"
cc -O2 "$here/bench/main.c" target/release/librusty_leveldb.a -lpthread -ldl -lm -o "$out/rust_bench"
