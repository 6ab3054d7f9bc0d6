#!/bin/sh
# Measures `romtyalig-join` on streams of 500,000 records, beside a C program that reads the same fields, sorts and
# writes.
#
#     bench/join.sh [STREAMS]..
#
# Without arguments: 2 16, so a million records and eight. The streams and the program in C are those of join.c. Each
# program runs ROUNDS times (3 unless set), in turn with the other; the least time counts, user and system together,
# and the greatest peak memory. Written is a table of seconds, their ratio, nanoseconds a record, mebibytes and bytes
# a record; and behind it how many times the time a record on the most streams is that on the fewest.
#
# ROMTYALIG_JOIN is the program's path (bin/romtyalig-join unless set); RECORDS is how many records a stream has. The
# streams take 26 megabytes each in the temporary folder. Debian packages: time; gcc.
set -eu

here=$(cd "$(dirname "$0")" && pwd)
top=$(dirname "$here")
joiner=${ROMTYALIG_JOIN:-$top/bin/romtyalig-join}
rounds=${ROUNDS:-3}
records=${RECORDS:-500000}
compiler=${CC:-cc}
export LC_ALL=C

[ -x "$joiner" ] || { echo "no program at $joiner" >&2; exit 2; }
[ $# -gt 0 ] || set -- 2 16

work=$(mktemp -d)
trap 'rm -rf "$work"' EXIT
trap 'exit 2' HUP INT TERM
"$compiler" -O2 -o "$work/join" "$here/join.c"

# One run: measure NAME COMMAND.. adds "seconds kibibytes" to the figures of NAME.
measure() {
    name=$1
    shift
    if ! /usr/bin/time -o "$work/once" -f '%U %S %M' "$@" >"$work/$name.ipfix"; then
        echo "$name: $(head -n 1 "$work/once")" >&2
        exit 1
    fi
    tail -n 1 "$work/once" | awk '{ print $1 + $2, $3 }' >>"$work/$name"
}

echo "| Records | join, s | C, s | ratio | join, ns a record | join, MiB | C, MiB | join, bytes a record |"
echo "|---|---|---|---|---|---|---|---|"
for streams in "$@"; do
    for seed in $(seq "$streams"); do
        [ -e "$work/stream-$seed.ipfix" ] || "$work/join" make "$records" "$seed" >"$work/stream-$seed.ipfix"
    done
    names=$(seq -f "$work/stream-%g.ipfix" "$streams")
    rm -f "$work/joined" "$work/sorted"
    round=0
    while [ "$round" -lt "$rounds" ]; do
        # shellcheck disable=SC2086 # the names are words
        measure joined "$joiner" join $names
        # shellcheck disable=SC2086 # the names are words
        measure sorted "$work/join" sort $names
        round=$((round + 1))
    done
    awk -v records=$((streams * records)) -v each="$work/each" 'FNR == 1 { file++ }
        { if (!(file in time) || $1 < time[file]) time[file] = $1; if ($2 > room[file]) room[file] = $2 }
        END {
            printf "| %d | %.2f | %.2f | %.2f | %.0f | %.0f | %.0f | %.0f |\n", records, time[1], time[2],
                time[1] / (time[2] > 0 ? time[2] : 0.01), time[1] * 1e9 / records, room[1] / 1024, room[2] / 1024,
                room[1] * 1024 / records
            print records, time[1] / records >>each
        }' "$work/joined" "$work/sorted"
done
sort -n "$work/each" | awk 'NR == 1 { first = $2 } { last = $2 }
    END { printf "On the most a record takes %.2f times as long as on the fewest.\n", last / first }'
