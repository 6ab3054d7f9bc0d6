#!/bin/sh
# Measures `meter`, beside a program that only reads the same capture and sorts its packets, and `show`, beside libfixbuf.
#
#     bench/run.sh [PACKETS KEYS]..
#
# Without arguments: 1000000 1, 1000000 1000000 and 10000000 100000. Each program runs ROUNDS times (3 unless set), in
# turn with the other, on the same file; the least time counts, user and system together, and the greatest peak memory.
# Written are rows of two tables, seconds and mebibytes, with ratios: the program's figure by the other's. `show` reads
# the streams of captures of at least 10,000 keys.
#
# ROMTYALIG is the program's path (bin/romtyalig unless set). Debian packages: gcc, time; for `show` libfixbuf-dev, pkg-config.
# It needs 700 MB of disk in TMPDIR and 3 GB of memory for ten million packets.
set -eu

here=$(cd "$(dirname "$0")" && pwd)
top=$(dirname "$here")
program=${ROMTYALIG:-$top/bin/romtyalig}
rounds=${ROUNDS:-3}
compiler=${CC:-cc}
export LC_ALL=C

[ -x "$program" ] || { echo "no program at $program" >&2; exit 2; }
[ $# -gt 0 ] || set -- 1000000 1 1000000 1000000 10000000 100000

work=$(mktemp -d)
trap 'rm -rf "$work"' EXIT
trap 'exit 2' HUP INT TERM

"$compiler" -O2 -o "$work/make_capture" "$here/make_capture.c"
"$compiler" -O2 -o "$work/baseline" "$here/baseline.c"
readers=
if pkg-config --exists libfixbuf 2>/dev/null; then
    # shellcheck disable=SC2046 # the flags are words
    "$compiler" -O2 -o "$work/fixbuf_records" "$top/checks/fixbuf_records.c" $(pkg-config --cflags --libs libfixbuf)
    readers=yes
fi

# One run: measure NAME INPUT COMMAND.. adds "seconds kibibytes" to the figures of NAME.
measure() {
    name=$1
    input=$2
    shift 2
    /usr/bin/time -o "$work/once" -f '%U %S %M' "$@" <"$input" >/dev/null 2>&1
    awk '{ print $1 + $2, $3 }' "$work/once" >>"$work/$name"
}

# The row of two names: row NAME OTHER
row() {
    awk 'FNR == 1 { file++ }
        { if (!(file in time) || $1 < time[file]) time[file] = $1; if ($2 > room[file]) room[file] = $2 }
        END {
            printf " %.2f | %.2f | %.2f |", time[1], time[2], time[1] / (time[2] > 0 ? time[2] : 0.01)
            printf " %.0f | %.0f | %.2f |\n", room[1] / 1024, room[2] / 1024, room[1] / room[2]
        }' "$work/$1" "$work/$2"
}

echo "| Packets | Keys | meter, s | sorting, s | ratio | meter, MiB | sorting, MiB | ratio |"
echo "|---|---|---|---|---|---|---|---|"
: >"$work/shown"
while [ $# -ge 2 ]; do
    "$work/make_capture" "$1" "$2" >"$work/capture"
    rm -f "$work/meter" "$work/baseline_run" "$work/show" "$work/fixbuf"
    round=0
    while [ "$round" -lt "$rounds" ]; do
        measure meter "$work/capture" "$program" meter
        measure baseline_run "$work/capture" "$work/baseline"
        round=$((round + 1))
    done
    printf '| %s | %s |' "$1" "$2"
    row meter baseline_run
    if [ -n "$readers" ] && [ "$2" -ge 10000 ]; then
        "$program" meter <"$work/capture" >"$work/stream" 2>/dev/null
        round=0
        while [ "$round" -lt "$rounds" ]; do
            measure show "$work/stream" "$program" show
            measure fixbuf "$work/stream" "$work/fixbuf_records"
            round=$((round + 1))
        done
        { printf '| %s |' "$2"; row show fixbuf; } >>"$work/shown"
    fi
    shift 2
done
if [ -n "$readers" ]; then
    echo
    echo "| Records | show, s | libfixbuf, s | ratio | show, MiB | libfixbuf, MiB | ratio |"
    echo "|---|---|---|---|---|---|---|"
    cat "$work/shown"
fi
