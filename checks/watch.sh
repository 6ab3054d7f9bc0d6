#!/bin/sh
# 63 workers and a watcher on one set: flows are asked for while they are metered.
#
#     checks/watch.sh [RUNS [WORKERS [SEED]]]
#
# Each run has a capture of its own, 200,000 packets of 8 keys, which `make` writes by the seed and the run's number (20 runs,
# 63 workers and seed 1 unless given). `romtyalig-watch` meters it through one set of four entries and asks 1,000 times. It must
# write a line for each ask, `held` with four numbers, of which the first is 1 at least and the third at most the fourth, `absent`
# or `lost`, and behind them the total that the summary of `meter` has of the same capture. Then `bench_checks lists` does the same
# and looks behind each call at the list of slots that the pass has retired: it must have the same total, and no list may ever have
# been above 32 + 4 * seats, with a seat for each worker and one for the watcher. At the end an input one byte above the limit must
# have exit status 7, and a full device 3. The last line counts the runs and the lines, and says the longest list; the status is
# not 0 where a run differs.
#
# ROMTYALIG, ROMTYALIG_WATCH and BENCH_CHECKS are the programs' paths (bin/romtyalig, bin/romtyalig-watch and bin/bench_checks
# unless set; `make check` builds the last).
set -u

top=$(dirname "$(cd "$(dirname "$0")" && pwd)")
program=${ROMTYALIG:-$top/bin/romtyalig}
watcher=${ROMTYALIG_WATCH:-$top/bin/romtyalig-watch}
lists=${BENCH_CHECKS:-$top/bin/bench_checks}
runs=${1:-20}
workers=${2:-63}
seed=${3:-1}
asks=1000
bound=$((32 + 4 * (workers + 1)))

for file in "$program" "$watcher" "$lists"; do
    if [ ! -x "$file" ]; then
        echo "no program at $file" >&2
        exit 2
    fi
done

work=$(mktemp -d) || exit 2
trap 'rm -rf "$work"' EXIT
trap 'exit 2' HUP INT TERM

# What a text says: how many lines are held, absent and lost, the total, and "wrong" where a line is none of these or is out of
# place.
told() {
    awk '
        total != "" { wrong = "wrong" }
        $1 == "held" && NF == 5 && $2 >= 1 && $4 <= $5 { held++; next }
        $0 == "absent" { absent++; next }
        $0 == "lost" { lost++; next }
        $1 == "total" && NF == 3 { total = $2 " " $3; next }
        { wrong = "wrong" }
        END { printf "%d %d %d %s%s\n", held, absent, lost, total, wrong }'
}

# What `bench_checks lists` says: the longest list, how many asks held a flow, and the total, with "wrong" where it isn't one line of this
# form and with this bound.
looked() {
    awk -v bound="$bound" '
        $8 != bound { wrong = "wrong" }
        NR == 1 && NF == 10 && $1 == "packets" && $3 == "octets" && $5 == "most-retired" && $7 == "bound" && $9 == "held" {
            longest = $6; held = $10; total = $2 " " $4
            next
        }
        { wrong = "wrong" }
        END { printf "%d %d %s%s\n", longest, held, total, wrong }'
}

whole=0
differ=0
all_held=0
all_absent=0
all_lost=0
within=0
most=0
all_beside=0
for run in $(seq "$runs"); do
    "$program" make --seed "$((seed + run))" --packets 200000 --keys 8 >"$work/capture" 2>/dev/null || exit 2
    "$program" meter <"$work/capture" 2>"$work/summary" >/dev/null || exit 2
    wanted=$(awk '$1 == "accepted" { packets = $2 } $1 == "octets" { octets = $2 } END { print packets, octets }' "$work/summary")
    "$watcher" watch --workers "$workers" --sets 1 --asks "$asks" <"$work/capture" >"$work/text" || exit 2
    told <"$work/text" >"$work/told"
    read -r held absent lost total <"$work/told"
    all_held=$((all_held + held))
    all_absent=$((all_absent + absent))
    all_lost=$((all_lost + lost))
    if [ "$total" = "$wanted" ] && [ $((held + absent + lost)) -eq "$asks" ]; then
        whole=$((whole + 1))
    else
        echo "DIFFERS: run $run of seed $seed: $(cat "$work/told"), and not $wanted"
        differ=$((differ + 1))
    fi
    "$lists" lists "$workers" "$asks" <"$work/capture" >"$work/line" || exit 2
    looked <"$work/line" >"$work/looked"
    read -r longest beside total <"$work/looked"
    all_beside=$((all_beside + beside))
    if [ "$longest" -gt "$most" ]; then
        most=$longest
    fi
    if [ "$total" = "$wanted" ] && [ "$longest" -le "$bound" ]; then
        within=$((within + 1))
    else
        echo "DIFFERS: run $run of seed $seed: lists $(cat "$work/looked"), and not $bound at most and $wanted"
        differ=$((differ + 1))
    fi
done

# A status that a run must have, and what it is of.
status_is() {
    if [ "$1" -ne "$2" ]; then
        echo "DIFFERS: status $2 of $3, and not $1"
        differ=$((differ + 1))
    fi
}
head -c 1073741825 /dev/zero | "$watcher" watch
status_is 7 "$?" "an input above the limit"
"$watcher" watch <"$work/capture" >/dev/full
status_is 3 "$?" "a full device"
echo "$whole runs have all asks, packets and octets, $within have no list above $bound, $differ differ;" \
    "$all_held held, $all_absent absent, $all_lost lost; the longest list $most, beside $all_beside held"
[ "$differ" -eq 0 ]
