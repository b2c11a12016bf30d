#!/usr/bin/env bash
# Times truth and traces: bench/states/run.sh
# Wants rt, gcc and python3. It works in a folder of its own under /tmp and leaves nothing in the repository.
. "$(dirname "$0")/../harness.sh"
words="none none" build hv_reading hv_state
python3 "$here/measure.py" "$work/crates/bench/out/bench" "$work"
