#!/bin/sh
# Each word of `bench_checks`, once on a capture of twelve packets.
#
#     checks/bench_words.sh
#
# The gate runs `lists` alone, the word of the program's stored run; the others are seen by the scripts of checks/ and bench/ that
# need them, and here. What a word writes to standard output, and its status, must be as told; `pace` writes a number to standard
# error. The status is not 0 where anything differs. BENCH_CHECKS is the program's path (bin/bench_checks unless set).
set -u

top=$(dirname "$(cd "$(dirname "$0")" && pwd)")
program=${BENCH_CHECKS:-$top/bin/bench_checks}
capture=$top/crates/bench_checks/stdin
differ=0

if [ ! -x "$program" ]; then
    echo "no program at $program" >&2
    exit 2
fi
work=$(mktemp -d) || exit 2
trap 'rm -rf "$work"' EXIT
trap 'exit 2' HUP INT TERM

# The status, the line on standard output, and the words.
check() {
    status=$1
    line=$2
    shift 2
    "$program" "$@" <"$capture" >"$work/output" 2>"$work/stderr"
    found=$?
    if [ "$found" -ne "$status" ] || [ "$(cat "$work/output")" != "$line" ]; then
        echo "DIFFERS: $*: status $found and '$(cat "$work/output")', and not $status and '$line'"
        differ=$((differ + 1))
    fi
}
check 0 "whole" threads
check 0 "packets 12 octets 431 most-retired 12 bound 40 held 0" lists 1 0
check 0 "records 12 packets 12 octets 431" windows 2 262184 4
for cache in turn pebr; do
    check 0 "" pace "$cache" 2 4
    if ! grep -q -x -E '[0-9]+' "$work/stderr"; then
        echo "DIFFERS: pace $cache: no number: $(cat "$work/stderr")"
        differ=$((differ + 1))
    fi
done
check 2 ""
check 2 "" other
check 2 "" threads 1
check 2 "" lists 64 1
check 2 "" windows 1 262183 4
check 2 "" pace other 2 4
echo "the words of bench_checks: $differ differ"
[ "$differ" -eq 0 ]
