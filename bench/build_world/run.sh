#!/usr/bin/env bash
# Times the building of worlds: bench/build_world/run.sh
# Wants rt and python3. It works in a folder of its own under /tmp and leaves nothing in the repository.
. "$(dirname "$0")/../harness.sh"
words="none none none" build hv_reading hv_world
python3 "$here/measure.py" "$work/crates/bench/out/bench" "$work"
