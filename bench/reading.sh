#!/bin/sh
# Measures how a capture is read in windows and metered by workers, without gathering and writing, beside a C program that reads
# the same windows.
#
#     bench/reading.sh [MEGABYTES]..
#
# Without arguments: 100 1000. For each size it makes two captures, one of ARP requests alone, so that only windows,
# index, pieces and the first look at each record are left, and one of the packets of 1,000 keys. `bench_checks windows`
# and `windows.c` meter them in turn, ROUNDS times (5 unless set), with one worker and with four, in windows of 4 MiB
# and through 4,096 sets. Both must find the same packets. Written is a table: seconds from start to end and of the
# processor, peak memory in MiB, and the medians of the ratios within a round.
#
# BENCH_CHECKS is the path of the program of crates/bench_checks (bin/bench_checks unless set). Debian packages: gcc, python3, time.
set -eu

here=$(cd "$(dirname "$0")" && pwd)
program=${BENCH_CHECKS:-$(dirname "$here")/bin/bench_checks}
rounds=${ROUNDS:-5}
compiler=${CC:-cc}
window=4194304
sets=4096
export LC_ALL=C

[ -x "$program" ] || { echo "no program at $program" >&2; exit 2; }
[ $# -gt 0 ] || set -- 100 1000

work=$(mktemp -d)
trap 'rm -rf "$work"' EXIT
trap 'exit 2' HUP INT TERM

"$compiler" -O2 -o "$work/make_capture" "$here/make_capture.c"
"$compiler" -O2 -pthread -o "$work/windows" "$here/windows.c"

echo "| Capture | MB | Workers | Seconds, C's | Processor's seconds, C's | MiB, C's | Ratio of seconds | of processor's seconds |"
echo "|---|---|---|---|---|---|---|---|"
for megabytes in "$@"; do
    for kind in ARP packets; do
        case $kind in
        ARP) "$work/make_capture" $((megabytes * 1000000 / 76)) 0 ;;
        packets) "$work/make_capture" $((megabytes * 1000000 / 65)) 1000 ;;
        esac >"$work/capture"
        for workers in 1 4; do
            words="$workers $window $sets"
            # shellcheck disable=SC2086 # three words
            "$program" windows $words <"$work/capture" >"$work/own"
            # shellcheck disable=SC2086
            "$work/windows" $words <"$work/capture" >"$work/other"
            cmp "$work/own" "$work/other"
            python3 "$here/rounds.py" "$rounds" "$work/capture" "c=exec $work/windows $words" "own=exec $program windows $words" |
                awk -F '\t' -v what="| $kind | $megabytes | $workers |" '
                    $1 == "c" { wall = $2; time = $3; room = $4 }
                    $1 == "own" { print what, $2 ", " wall, "|", $3 ", " time, "|", $4 ", " room, "|", $5, "|", $6, "|" }'
        done
    done
done
