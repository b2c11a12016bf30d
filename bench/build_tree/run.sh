#!/usr/bin/env bash
# Times reading plans and building their trees: bench/build_tree/run.sh
# Wants rt and python3. It works in a folder of its own under /tmp and leaves nothing in the repository.
. "$(dirname "$0")/../harness.sh"
words=none build hv_reading hv_plan
python3 "$here/measure.py" "$work/crates/bench/out/bench" "$work"
