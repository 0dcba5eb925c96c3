#!/bin/bash
# Builds the proved program and the two Rust baselines for release, runs the three on the same rounds, in turn,
# five times, checks that they print the same, and prints the best time of each, the microseconds for a call, and
# the ratio to each baseline. Processor time is taken, as the machine may be shared. The blocks of the baselines'
# code begin at cache lines: without that the same code took a third longer where an edit elsewhere had moved it.
# bench/run.sh [ROUNDS]
set -eu
rounds=${1:-2000}
cd "$(dirname "$0")/.."
(cd crates/bench && rt run -- 1) >/dev/null 2>&1
RUSTFLAGS="${RUSTFLAGS:-} -C llvm-args=-align-all-nofallthru-blocks=6" \
    cargo build --release --offline --quiet --manifest-path bench/Cargo.toml
programs=(crates/bench/out/bench bench/target/release/baseline bench/target/release/byvalue)

# The processor time of one run in milliseconds; what it writes goes to the file named.
timed() { # PROGRAM FILE
    local TIMEFORMAT='%3U'
    { time "$1" "$rounds" >"$2"; } 2>&1 | tr -d '.' | sed 's/^0*\([0-9]\)/\1/'
}

said=$(mktemp -d)
trap 'rm -r "$said"' EXIT
best=(0 0 0)
for turn in 1 2 3 4 5; do
    for k in 0 1 2; do
        t=$(timed "${programs[k]}" "$said/$k")
        cmp "$said/0" "$said/$k" || { echo "run.sh: bench and ${programs[k]} differ" >&2; exit 1; }
        if [ "$turn" = 1 ] || [ "$t" -lt "${best[k]}" ]; then best[k]=$t; fi
    done
done
cat "$said/0"
calls=$(sed 's/^calls=\([0-9]*\) .*/\1/' "$said/0")
awk -v a="${best[0]}" -v b="${best[1]}" -v c="${best[2]}" -v n="$calls" '
function line(name, t) { printf "%-18s %.3f s  %.2f us per call\n", name, t / 1e3, t * 1e3 / n }
BEGIN {
    line("rattle", a)
    line("baseline, in place", b)
    line("baseline, by value", c)
    printf "ratio %.2f to the one in place, %.2f to the one by value (below 1 the proved program is faster)\n", a / b, a / c
}'
