#!/usr/bin/env bash
# Tries the wrong bodies of sweep/edits that the gate leaves out: sweep/edits.sh hv_world ..
# The prover must refuse each of them. A copy of the repository is worked on, with the crates below as they are built.
set -eu
top=$(cd "$(dirname "$0")/.." && pwd)
room=$(mktemp -d)
trap 'rm -rf "$room"' EXIT
cd "$room"
tar --create --exclude=incremental --directory="$top" crates crates.txt HANDLES | tar --extract
git init -q
status=0
for name in "$@"; do
    rm -rf "crates/$name/must-fail"
    cp -a "$top/sweep/edits/$name" "crates/$name/must-fail"
    rt must-fail "$name" || status=1
done
exit $status
