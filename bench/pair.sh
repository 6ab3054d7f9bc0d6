#!/bin/sh
# Measures `romtyalig-pair` on flow records of one key and its reverse, beside a reader over libfixbuf of the same stream.
#
#     bench/pair.sh [RECORDS]..
#
# Without arguments: 100000 1000000. Each program runs ROUNDS times (3 unless set), in turn with the other; the least
# time counts, user and system together, and the greatest peak memory. Written is a table of seconds and mebibytes, with
# the ratio of times. With an idle time-out of a day every record has its mate, half the list behind it. The reader only
# reads the records and writes a line for each.
#
# ROMTYALIG_PAIR is the program's path (bin/romtyalig-pair unless set). Debian packages: time; gcc, libfixbuf-dev, pkg-config.
set -eu

here=$(cd "$(dirname "$0")" && pwd)
top=$(dirname "$here")
filter=${ROMTYALIG_PAIR:-$top/bin/romtyalig-pair}
rounds=${ROUNDS:-3}
compiler=${CC:-cc}
export LC_ALL=C

[ -x "$filter" ] || { echo "no program at $filter" >&2; exit 2; }
[ $# -gt 0 ] || set -- 100000 1000000

work=$(mktemp -d)
trap 'rm -rf "$work"' EXIT
trap 'exit 2' HUP INT TERM

# shellcheck disable=SC2046 # the flags are words
"$compiler" -O2 -o "$work/fixbuf_records" "$top/checks/fixbuf_records.c" $(pkg-config --cflags --libs libfixbuf)

# One run: measure NAME COMMAND.. adds "seconds kibibytes" to the figures of NAME.
measure() {
    name=$1
    shift
    /usr/bin/time -o "$work/once" -f '%U %S %M' "$@" <"$work/stream" >/dev/null 2>&1
    awk '{ print $1 + $2, $3 }' "$work/once" >>"$work/$name"
}

echo "| Records | pair, s | libfixbuf, s | ratio | pair, MiB |"
echo "|---|---|---|---|---|"
for records in "$@"; do
    python3 -B "$here/make_flows.py" "$records" >"$work/stream"
    rm -f "$work/pair" "$work/fixbuf"
    round=0
    while [ "$round" -lt "$rounds" ]; do
        measure pair "$filter" pair --idle 86400
        measure fixbuf "$work/fixbuf_records"
        round=$((round + 1))
    done
    awk -v records="$records" 'FNR == 1 { file++ }
        { if (!(file in time) || $1 < time[file]) time[file] = $1; if ($2 > room[file]) room[file] = $2 }
        END { printf "| %s | %.2f | %.2f | %.2f | %.0f |\n", records, time[1], time[2], time[1] / (time[2] > 0 ? time[2] : 0.01), room[1] / 1024 }' \
        "$work/pair" "$work/fixbuf"
done
