# What the benches share. A bench's run.sh reads this file, and then has the folders $here, $top and $work.
set -euo pipefail
here=$(cd "$(dirname "$0")" && pwd)
top=$(cd "$here/../.." && pwd)
work=$(mktemp -d "/tmp/$(basename "$here").XXXXXX")
export PYTHONPATH=$top/bench PYTHONDONTWRITEBYTECODE=1
trap 'rm -rf "$work"' EXIT

# The crates that are named and those of the repository that they stand on, lowest first: crates.txt names each of them behind what
# it stands on, so its lines are gone through from the last.
with_lower() {
    local line wanted=" $* " found=
    while IFS= read -r line; do
        case $wanted in
            *" ${line%%:*} "*) wanted="$wanted${line#*:} " found="${line%%:*} $found" ;;
        esac
    done < <(grep -v '^#' "$top/crates.txt" | tac)
    echo "$found"
}

# Builds main.rt.txt, in a small repository of its own under $work, with copies of the crates that are named and of those below them.
# It is run once on $words, which have it measure nothing. With TRY=1 nothing is proved, and that is all: so it shows in a minute
# that main.rt.txt still fits the crates.
build() {
    local crate above= how=run
    [ -z "${TRY-}" ] || how=try
    mkdir -p "$work/crates/bench/src"
    for crate in $(with_lower "$@"); do
        cp -r "$top/crates/$crate" "$work/crates/"
        grep "^$crate:" "$top/crates.txt" >> "$work/crates.txt"
        above="$crate $above"
    done
    cp "$here/main.rt.txt" "$work/crates/bench/src/main.rt"
    echo "bench: $above" >> "$work/crates.txt"
    (cd "$work/crates/bench" && "${RT:-rt}" $how -- $words) > "$work/rt.log" 2>&1 || { tail -20 "$work/rt.log"; exit 1; }
    [ -z "${TRY-}" ] || { echo "$here fits the crates"; exit 0; }
}
