#!/bin/sh
# Measures `romtyalig-pipe` beside `romtyalig meter` with as many threads, from a file and from a slow source.
#
#     bench/pipe.sh [KIND]..
#
# Without arguments: headers frames scan thousand, the four kinds of capture that make_traffic.c makes, of PACKETS
# packets (2,000,000 unless set, of frames a sixth) by the seed 1. All run in turn on the same file, ROUNDS times (5
# unless set): `meter` with 1, 2 and 4 workers, and the pipeline with 1 and 3, which with its reader are 2 and 4
# threads; it has no fewer. The slow source is slow.py, which gives RATE megabytes a second (100 unless set) through a
# pipe. Written are the medians of seconds from start to end and of the processor's seconds (those of the source
# included), the peak memory of the greatest process in MiB, and medians of the ratios to `meter` with as many threads
# in the same round: below 1 the pipeline is faster.
#
# ROMTYALIG and ROMTYALIG_PIPE are the programs' paths (bin/romtyalig and bin/romtyalig-pipe unless set). Debian packages: gcc,
# python3, time.
set -eu

here=$(cd "$(dirname "$0")" && pwd)
top=$(dirname "$here")
program=${ROMTYALIG:-$top/bin/romtyalig}
pipe=${ROMTYALIG_PIPE:-$top/bin/romtyalig-pipe}
rounds=${ROUNDS:-5}
packets=${PACKETS:-2000000}
rate=${RATE:-100}
compiler=${CC:-cc}
export LC_ALL=C

for needed in "$program" "$pipe"; do
    [ -x "$needed" ] || { echo "no program at $needed" >&2; exit 2; }
done
[ $# -gt 0 ] || set -- headers frames scan thousand

work=$(mktemp -d)
trap 'rm -rf "$work"' EXIT
trap 'exit 2' HUP INT TERM

"$compiler" -O2 -o "$work/make_traffic" "$here/make_traffic.c" -lm

# The rows of one capture and one source: rows KIND SOURCE, where what a command begins with gives it the source.
rows() {
    case $2 in
    file) from="exec" ;;
    slow) from="python3 $here/slow.py $rate |" ;;
    esac
    python3 "$here/rounds.py" "$rounds" "$work/capture" \
        "meter-1=$from $program meter --workers 1 >$work/out" \
        "meter-2=$from $program meter --workers 2 >$work/out" \
        "meter-4=$from $program meter --workers 4 >$work/out" \
        "pipe-2:meter-2=$from $pipe pipe --workers 1 >$work/out" \
        "pipe-4:meter-4=$from $pipe pipe --workers 3 >$work/out" |
        awk -F '\t' -v what="| $1 | $2 |" '{
            split($1, name, "-")
            print what, name[1] " | " name[2] " | " $2 " | " $3 " | " $4 " | " $5 " | " $6 " |" }'
}

echo "| Capture | Source | Program | Threads | Seconds | Processor's seconds | MiB | Ratio of seconds | of processor's seconds |"
echo "|---|---|---|---|---|---|---|---|---|"
for kind in "$@"; do
    count=$packets
    [ "$kind" != frames ] || count=$((packets / 6))
    "$work/make_traffic" "$kind" "$count" 1 >"$work/capture" 2>"$work/told"
    echo "$kind: $count packets, $(cat "$work/told")" >&2
    rows "$kind" file
    rows "$kind" slow
done
