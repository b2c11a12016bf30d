#!/usr/bin/env bash
# Times the reader of expressions beside the same reader in plain Rust, in one run: bench/read_sexps/run.sh
# Wants rt, rustc and python3. It works in a folder of its own under /tmp and leaves nothing in the repository.
. "$(dirname "$0")/../harness.sh"
: > "$work/empty"
words=$work/empty build hv_text
rustc -O -A warnings -o "$work/reader" "$here/reader.rs"

for size in 1 4 16 64; do
    python3 "$here/make_text.py" "$size" > "$work/text-$size"
done
python3 "$here/compare.py" "$work/crates/bench/out/bench" "$work/reader" "$work"/text-{1,4,16,64}
