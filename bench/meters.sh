#!/bin/sh
# Measures `meter` with 1, 2 and 4 workers beside other meters of captures: softflowd, nfpcapd of nfdump, and argus.
#
#     bench/meters.sh [KIND]..
#
# Without arguments: headers frames scan thousand, the four kinds of capture that make_traffic.c makes, of PACKETS
# packets (2,000,000 unless set, of frames a sixth) by the seed 1. All run in turn on the same file, ROUNDS times (5
# unless set), each with an idle time-out of 300 s and an active one of 1,800 s: meter, nfpcapd and argus write a file,
# and softflowd sends datagrams of IPFIX to this host, where discard.py takes them. A meter that isn't there is left
# out, with a line. Written are the medians of seconds from start to end and of the processor's seconds, the peak memory
# of the greatest process in MiB, and medians of the ratios to `meter` with one worker in the same round: above 1 is
# slower.
#
# argus sleeps to the end of a second before it ends, so its processor's seconds tell more. Flows aren't the same in all: only
# `meter` and nfpcapd keep each direction apart and cut flows by the same rules.
#
# ROMTYALIG is the program's path (bin/romtyalig unless set), PORT a free one (9997 unless set). Debian packages: gcc, python3, time;
# softflowd, nfdump, argus-server. softflowd and argus are looked for in sbin too.
set -eu

here=$(cd "$(dirname "$0")" && pwd)
program=${ROMTYALIG:-$(dirname "$here")/bin/romtyalig}
rounds=${ROUNDS:-5}
packets=${PACKETS:-2000000}
port=${PORT:-9997}
compiler=${CC:-cc}
PATH=$PATH:/usr/sbin:/usr/local/sbin
export LC_ALL=C PATH

[ -x "$program" ] || { echo "no program at $program" >&2; exit 2; }
[ $# -gt 0 ] || set -- headers frames scan thousand

work=$(mktemp -d)
taker=
trap 'if [ -n "$taker" ]; then kill "$taker"; fi; rm -rf "$work"' EXIT
trap 'exit 2' HUP INT TERM

"$compiler" -O2 -o "$work/make_traffic" "$here/make_traffic.c" -lm
mkdir "$work/flows"

# argus reads its time-outs from a file.
{
    echo ARGUS_FLOW_STATUS_INTERVAL=1800
    echo ARGUS_MAR_STATUS_INTERVAL=86400
    for kind in IP TCP ICMP IGMP FRAG ARP OTHER; do
        echo "ARGUS_${kind}_TIMEOUT=300"
    done
} >"$work/argus.conf"

# What is run, as rounds.py takes it.
contenders() {
    for workers in 1 2 4; do
        echo "meter-$workers=exec $program meter --workers $workers >$work/out"
    done
    echo "softflowd=exec softflowd -r $work/capture -n 127.0.0.1:$port -v 10 -d -6 -A milli -m 100000000 -t tcp=300 -t tcp.rst=300" \
        "-t tcp.fin=300 -t udp=300 -t general=300 -t maxlife=1800 -c none -p $work/softflowd.pid"
    echo "nfpcapd=rm -f $work/flows/*; exec nfpcapd -r $work/capture -w $work/flows -e 1800,300 -t 86400"
    echo "argus=rm -f $work/argus.out; exec argus -X -F $work/argus.conf -r $work/capture -w $work/argus.out"
}

contenders >"$work/all"
while IFS= read -r line; do
    name=${line%%=*}
    case $name in
    meter-*) echo "$line" ;;
    *) if command -v "$name" >/dev/null; then echo "$line"; else echo "no $name here: left out" >&2; fi ;;
    esac
done <"$work/all" >"$work/found"

python3 "$here/discard.py" "$port" >"$work/listens" &
taker=$!
for _ in 1 2 3 4 5 6 7 8 9 10; do
    [ -s "$work/listens" ] || sleep 0.2
done
[ -s "$work/listens" ] || { echo "port $port can't be taken" >&2; exit 2; }

echo "| Capture | Meter | Seconds | Processor's seconds | MiB | Ratio of seconds | of processor's seconds |"
echo "|---|---|---|---|---|---|---|"
for kind in "$@"; do
    count=$packets
    [ "$kind" != frames ] || count=$((packets / 6))
    "$work/make_traffic" "$kind" "$count" 1 >"$work/capture" 2>"$work/told"
    echo "$kind: $count packets, $(cat "$work/told")" >&2
    set --
    while IFS= read -r line; do
        set -- "$@" "$line"
    done <"$work/found"
    python3 "$here/rounds.py" "$rounds" "$work/capture" "$@" |
        awk -F '\t' -v kind="$kind" '{ print "| " kind " | " $1 " | " $2 " | " $3 " | " $4 " | " $5 " | " $6 " |" }'
done
