#!/bin/sh
# Tries the edits that the prover must refuse and that the gate leaves out for its time: crates/NAME/tried/*.edit.
#   compare/edits.sh [--all] [NAME..]
# --all tries those of the gate (must-fail/) too. With names it tries the edits of these crates alone: what to run after one of them was changed.
# It proves the crates in a copy of the repository and ends as `rt must-fail` does; its status is 0 if every edit was refused.
set -e
all=
case ${1-} in
--all) all=yes && shift ;;
-*)
    echo "usage: compare/edits.sh [--all] [NAME..]" >&2
    exit 2
    ;;
esac
root=$(cd "$(dirname "$0")/.." && pwd -P)
for name in "$@"; do
    [ -d "$root/crates/$name" ] || {
        echo "compare/edits.sh: no crate $name" >&2
        exit 2
    }
done
room=$(mktemp -d)
trap 'rm -rf "$room"' EXIT
(cd "$root" && tar -cf - --exclude=out crates crates.txt) | (cd "$room" && tar -xf -)
for c in "$room"/crates/*; do
    name=$(basename "$c")
    [ -n "$all" ] || rm -rf "$c/must-fail"
    [ ! -d "$c/tried" ] || { mkdir -p "$c/must-fail" && mv "$c"/tried/*.edit "$c/must-fail/"; }
    # with names, only the crates that are named keep their edits
    case " $* " in
    "  " | *" $name "*) ;;
    *) rm -rf "$c/must-fail" ;;
    esac
done
cd "$room"
rt must-fail "$@"
