#!/bin/sh
# Eight workers meter 1,000,000 packets of 1,000 keys through one set, many times.
#
#     checks/one_set.sh [RUNS [WORKERS [SEED]]]
#
# Each run has a capture of its own, which `make` writes by the seed and the run's number (10 runs, 8 workers and seed 1 unless
# given). Nearly every packet meets another worker at one of the four entries. The records that `show` finds in the stream must
# have as many packets and octets as the summary of `meter` says were accepted, and all 1,000,000 packets. The last line
# counts; the status is not 0 where a run differs.
#
# ROMTYALIG is the program's path (bin/romtyalig unless set).
set -u

top=$(dirname "$(cd "$(dirname "$0")" && pwd)")
program=${ROMTYALIG:-$top/bin/romtyalig}
runs=${1:-10}
workers=${2:-8}
seed=${3:-1}

if [ ! -x "$program" ]; then
    echo "no program at $program" >&2
    exit 2
fi

work=$(mktemp -d) || exit 2
trap 'rm -rf "$work"' EXIT
trap 'exit 2' HUP INT TERM

# The packets and the octets of all records: elements 2 and 1.
sums() {
    awk '{
        for (field = 2; field <= NF; field++) {
            if (split($field, parts, "=") == 2 && parts[1] == "2") packets += parts[2]
            if (parts[1] == "1") octets += parts[2]
        }
    } END { printf "%d %d\n", packets, octets }'
}

whole=0
differ=0
for run in $(seq "$runs"); do
    "$program" make --seed "$((seed + run))" --packets 1000000 --keys 1000 >"$work/capture" 2>/dev/null || exit 2
    "$program" meter --workers "$workers" --sets 1 <"$work/capture" >"$work/stream" 2>"$work/summary" || exit 2
    wanted=$(awk '$1 == "accepted" { packets = $2 } $1 == "octets" { octets = $2 } END { print packets, octets }' "$work/summary")
    found=$("$program" show <"$work/stream" 2>/dev/null | sums)
    if [ "$found" = "$wanted" ] && [ "${found%% *}" = 1000000 ]; then
        whole=$((whole + 1))
    else
        echo "DIFFERS: run $run of seed $seed: $found, and not $wanted"
        differ=$((differ + 1))
    fi
done
echo "$whole runs have all packets and octets, $differ differ"
[ "$differ" -eq 0 ]
