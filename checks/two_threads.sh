#!/bin/sh
# Two threads meter 100,000 packets of 100 keys into one cache of four sets, many times.
#
#     checks/two_threads.sh [RUNS [SEED]]
#
# Each run has a capture of its own, made from the seed and the run's number (20 runs and seed 1 unless given). The
# program ends with 0 where the fragments that were handed out and the entries at the end together have all packets and
# octets of the capture. The last line counts; the status is not 0 where a run differs.
#
# BENCH_CHECKS is the path of the program of crates/bench_checks (bin/bench_checks unless set, which `make check` builds).
set -u

top=$(dirname "$(cd "$(dirname "$0")" && pwd)")
program=${BENCH_CHECKS:-$top/bin/bench_checks}
runs=${1:-20}
seed=${2:-1}

if [ ! -x "$program" ]; then
    echo "no program at $program" >&2
    exit 2
fi

work=$(mktemp -d) || exit 2
trap 'rm -rf "$work"' EXIT
trap 'exit 2' HUP INT TERM

whole=0
differ=0
for run in $(seq "$runs"); do
    python3 "$top/checks/hundred_keys.py" "$seed" "$run" >"$work/capture" || exit 2
    if "$program" threads <"$work/capture" >/dev/null; then
        whole=$((whole + 1))
    else
        echo "DIFFERS: run $run of seed $seed"
        differ=$((differ + 1))
    fi
done
echo "$whole runs have all packets and octets, $differ differ"
[ "$differ" -eq 0 ]
