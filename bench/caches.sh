#!/bin/sh
# Measures the shared caches alone: nanoseconds a packet, from start to end, of 1, 2 and 4 threads that meter packets in memory,
# beside a C program that makes the same loads, stores and exchanges on the same words.
#
#     bench/caches.sh [CACHE]..
#
# Without arguments: turn. The capture is of the kind `headers` of make_traffic.c, of PACKETS packets (2,000,000 unless
# set) by the seed 1. Both programs run in turn on it, ROUNDS times (7 unless set), with 4,096 sets and with 65,536.
# Written are medians of nanoseconds and of the ratios within a round, and how much faster the threads are together than
# one, by the medians.
#
# BENCH_CHECKS is the path of the program of crates/bench_checks (bin/bench_checks unless set). Debian packages: gcc, python3, time.
set -eu

here=$(cd "$(dirname "$0")" && pwd)
program=${BENCH_CHECKS:-$(dirname "$here")/bin/bench_checks}
rounds=${ROUNDS:-7}
packets=${PACKETS:-2000000}
compiler=${CC:-cc}
export LC_ALL=C

[ -x "$program" ] || { echo "no program at $program" >&2; exit 2; }
[ $# -gt 0 ] || set -- turn

work=$(mktemp -d)
trap 'rm -rf "$work"' EXIT
trap 'exit 2' HUP INT TERM

"$compiler" -O2 -o "$work/make_traffic" "$here/make_traffic.c" -lm
"$compiler" -O2 -pthread -o "$work/caches" "$here/caches.c"
"$work/make_traffic" headers "$packets" 1 >"$work/capture" 2>"$work/told"

echo "| Cache | Sets | Threads | Nanoseconds a packet | C's | Ratio | Speed by one thread's | C's |"
echo "|---|---|---|---|---|---|---|---|"
for cache in "$@"; do
    for sets in 4096 65536; do
        set --
        for threads in 1 2 4; do
            words="$cache $threads $sets"
            set -- "$@" "c-$threads=exec $work/caches $words" "own-$threads:c-$threads=exec $program pace $words"
        done
        python3 "$here/rounds.py" "$rounds" "$work/capture" "$@" | awk -F '\t' -v what="| $cache | $sets |" '
            { split($1, name, "-") }
            $1 == "c-1" { other = $7 }
            $1 == "own-1" { own = $7 }
            name[1] == "c" { last = $7 }
            name[1] == "own" { printf "%s %s | %s | %s | %s | %.2f | %.2f |\n", what, name[2], $7, last, $8, own / $7, other / last }'
    done
done
