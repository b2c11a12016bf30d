#!/usr/bin/env bash
# Refuses each request for memory in turn while worlds are built and plans run in them, with both kinds of state:
# sweep/traces/run.sh. Wants rt, gcc and python3. It works in a folder of its own under /tmp.
here=$(cd "$(dirname "$0")" && pwd)
. "$here/../../bench/harness.sh"
words="$here/yard.hddl $here/yard-problem.hddl" build hv_reading hv_state
PYTHONPATH=$top/sweep python3 "$here/refuse.py" "$work/crates/bench/out/bench"
