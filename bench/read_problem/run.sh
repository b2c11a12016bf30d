#!/usr/bin/env bash
# Times the reader of problems beside the reader of expressions over the same texts: bench/read_problem/run.sh
# Wants rt and python3. It works in a folder of its own under /tmp and leaves nothing in the repository.
. "$(dirname "$0")/../harness.sh"
: > "$work/empty"
words=$work/empty build hv_reading

for literals in 20000 80000 320000 1000000; do
    python3 "$here/make_problem.py" "$literals" > "$work/problem-$literals"
done
python3 "$here/measure.py" "$work/crates/bench/out/bench" "$work"/problem-{20000,80000,320000,1000000}
