#!/bin/sh
# Measures what `--sets`, `--workers` and the pipeline are worth, by how many flows are open at once.
#
#     bench/open_flows.sh [FLOWS]..
#
# Without arguments: 1000 10000 100000 1000000. For each number a capture has PACKETS packets (3,000,000 unless set), one of each
# flow in turn, so all flows are open until the end. `meter` runs with 4,096 and with 65,536 sets, with one worker and with four,
# and the pipeline with three workers. All run in turn on the same file, ROUNDS times (5 unless set). Written are the medians of
# seconds from start to end and of the processor's seconds, and the peak memory in MiB.
#
# ROMTYALIG and ROMTYALIG_PIPE are the programs' paths (bin/romtyalig and bin/romtyalig-pipe unless set). A capture of 3,000,000
# packets takes 132 megabytes in the temporary folder. Debian packages: gcc, python3, time.
set -eu

here=$(cd "$(dirname "$0")" && pwd)
top=$(dirname "$here")
program=${ROMTYALIG:-$top/bin/romtyalig}
pipe=${ROMTYALIG_PIPE:-$top/bin/romtyalig-pipe}
rounds=${ROUNDS:-5}
packets=${PACKETS:-3000000}
compiler=${CC:-cc}
export LC_ALL=C

for needed in "$program" "$pipe"; do
    [ -x "$needed" ] || { echo "no program at $needed" >&2; exit 2; }
done
[ $# -gt 0 ] || set -- 1000 10000 100000 1000000

work=$(mktemp -d)
trap 'rm -rf "$work"' EXIT
trap 'exit 2' HUP INT TERM
"$compiler" -O2 -o "$work/make_capture" "$here/make_capture.c"

echo "| Open flows | Program | Sets | Seconds | Processor's seconds | MiB |"
echo "|---|---|---|---|---|---|"
for flows in "$@"; do
    "$work/make_capture" "$packets" "$flows" >"$work/capture"
    set --
    for sets in 4096 65536; do
        set -- "$@" "one worker, $sets=exec $program meter --sets $sets" \
            "four workers, $sets=exec $program meter --workers 4 --sets $sets" \
            "pipeline of three, $sets=exec $pipe pipe --workers 3 --sets $sets"
    done
    python3 "$here/rounds.py" "$rounds" "$work/capture" "$@" | awk -F '\t' -v flows="$flows" '
        { split($1, name, ", "); printf "| %s | %s | %s | %.2f | %.2f | %d |\n", flows, name[1], name[2], $2, $3, $4 }'
    rm "$work/capture"
done
