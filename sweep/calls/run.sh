#!/usr/bin/env bash
# Refuses each request for memory in turn while texts are read and printed, worlds and trees are built, candidates are listed, and
# plans are judged and certificates checked: sweep/calls/run.sh. Wants rt, gcc and python3. It works in a folder of its own under
# /tmp.
here=$(cd "$(dirname "$0")" && pwd)
. "$here/../../bench/harness.sh"
texts=$here/wide
words="$texts/domain.hddl $texts/problem.hddl $texts/plan.txt $texts/certificate.txt"
build hv_judge
PYTHONPATH=$top/sweep python3 "$here/refuse.py" "$work/crates/bench/out/bench"
