#!/bin/sh
# The pipelined meter by 62 workers, with a queue of one batch and the smallest batches, beside `meter`, many times.
#
#     checks/pipe.sh [RUNS [SEED]]
#
# Each run has a capture of its own, 60,000 packets of 64 keys in eleven batches, which `make` writes by the seed and the run's
# number (100 runs and seed 1 unless given). Nothing cuts the sessions of such a capture, so only one list of records is
# lawful, whatever reader and workers do: `romtyalig-pipe` must write the very bytes of `meter`, and report the same. The last line
# counts; the status is not 0 where a run differs.
#
# ROMTYALIG and ROMTYALIG_PIPE are the programs' paths (bin/romtyalig and bin/romtyalig-pipe unless set).
set -u

top=$(dirname "$(cd "$(dirname "$0")" && pwd)")
program=${ROMTYALIG:-$top/bin/romtyalig}
pipe=${ROMTYALIG_PIPE:-$top/bin/romtyalig-pipe}
runs=${1:-100}
seed=${2:-1}

for needed in "$program" "$pipe"; do
    if [ ! -x "$needed" ]; then
        echo "no program at $needed" >&2
        exit 2
    fi
done

work=$(mktemp -d) || exit 2
trap 'rm -rf "$work"' EXIT
trap 'exit 2' HUP INT TERM

same=0
differ=0
for run in $(seq "$runs"); do
    "$program" make --seed "$((seed + run))" --packets 60000 >"$work/capture" 2>/dev/null || exit 2
    "$program" meter <"$work/capture" >"$work/wanted" 2>"$work/summary" || exit 2
    if "$pipe" pipe --workers 62 --queue 1 --batch 262184 <"$work/capture" >"$work/stream" 2>"$work/stderr" &&
        cmp -s "$work/wanted" "$work/stream" && cmp -s "$work/summary" "$work/stderr"; then
        same=$((same + 1))
    else
        echo "DIFFERS: run $run of seed $seed"
        differ=$((differ + 1))
    fi
done
echo "$same runs write and report what meter does, $differ differ"
[ "$differ" -eq 0 ]
