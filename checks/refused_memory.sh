#!/bin/bash
# Runs each program with each of its allocations refused in turn.
#
#     checks/refused_memory.sh
#
# `meter` on a capture of two packets, by one worker, three and four, `romtyalig-pipe` on the same, `schedule` on a short schedule,
# `show` and `romtyalig-pair` on a short stream, `romtyalig-join` on it twice and `romtyalig-pcapng` on a short pcapng file are run
# with one allocation refused, the first, the second and so on to the last that the run makes. Few flows are gathered and written
# by one thread; so `meter` and `romtyalig-pipe` with several workers and `romtyalig-join` are run so on 17,000 flows of one packet,
# too, most of which stay where they lie, and `meter` on 30,000 of three packets, all of which go to buckets. Each run must end with
# status 0 and the output of a run with all its memory, or with status 8, no output and the line `no memory`; `romtyalig-pair`,
# `-join` and `-pcapng` have no such line. `refuse.c` stands in front of the C library for that; without gcc all is skipped with
# one line.
# ROMTYALIG, ROMTYALIG_PIPE and so on are the programs' paths (those in bin unless set).
set -u

here=$(cd "$(dirname "$0")" && pwd)
top=$(dirname "$here")
program=${ROMTYALIG:-$top/bin/romtyalig}
pipe=${ROMTYALIG_PIPE:-$top/bin/romtyalig-pipe}
pair=${ROMTYALIG_PAIR:-$top/bin/romtyalig-pair}
join=${ROMTYALIG_JOIN:-$top/bin/romtyalig-join}
pcapng=${ROMTYALIG_PCAPNG:-$top/bin/romtyalig-pcapng}
export LC_ALL=C

for needed in "$program" "$pipe" "$pair" "$join" "$pcapng"; do
    if [ ! -x "$needed" ]; then
        echo "no program at $needed" >&2
        exit 2
    fi
done
if ! command -v gcc >/dev/null; then
    echo "skipped: no gcc"
    exit 0
fi
work=$(mktemp -d)
trap 'rm -rf "$work"' EXIT
gcc -O1 -shared -fPIC -o "$work/refuse.so" "$here/refuse.c" -ldl || exit 2
gcc -O1 -o "$work/make_capture" "$top/bench/make_capture.c" || exit 2

# The run of a program and its words on an input, with the allocation of this number refused.
run() {
    local number=$1 input=$2
    shift 2
    REFUSED=$number COUNTED=$work/count LD_PRELOAD=$work/refuse.so "$@" <"$input" >"$work/out" 2>"$work/stderr"
}

differ=0
refused=0

# Whether what such a run left is right, where lack of memory is told by this line.
is_right() {
    case $1 in
    0) cmp -s "$work/out" "$work/wanted" ;;
    8) [ ! -s "$work/out" ] && [ "$(cat "$work/stderr")" = "$2" ] ;;
    *) false ;;
    esac
}

# All runs of a program and its words on an input, where lack of memory is told by this line.
try_all() {
    local line=$1 input=$2 number count status
    shift 2
    run 0 "$input" "$@" || { echo "DIFFERS: $* ended with $?"; exit 1; }
    cp "$work/out" "$work/wanted"
    count=$(cat "$work/count")
    [ "$count" -ge 3 ] || { echo "DIFFERS: $* made $count allocations"; exit 1; }
    for ((number = 1; number <= count; number++)); do
        run "$number" "$input" "$@"
        status=$?
        is_right "$status" "$line" || { echo "DIFFERS: $*: allocation $number of $count refused: status $status"; differ=$((differ + 1)); }
        [ "$status" -eq 8 ] && refused=$((refused + 1))
    done
}

"$program" make --seed=1 --packets=2 >"$work/two.pcap" 2>/dev/null
"$program" meter <"$work/two.pcap" >"$work/two.ipfix" 2>/dev/null
"$work/make_capture" 17000 17000 >"$work/many.pcap"
"$program" meter <"$work/many.pcap" >"$work/many.ipfix" 2>/dev/null
"$work/make_capture" 90000 30000 >"$work/thrice.pcap"
printf 'core 1 2 1 1 1\nnote 0\npin 0\nload 0 0\nshield 0 0 0\ncheck 0\nwrite 0 1 0 7\nreplace 0 0 0 1\nunshield 0 0\nleave 0\n' >"$work/steps"
# In pcapng: a section header, an interface of raw IP, and a packet that is an IPv4 header.
printf '\x0a\x0d\x0d\x0a\x1c\0\0\0\x4d\x3c\x2b\x1a\x01\0\0\0\xff\xff\xff\xff\xff\xff\xff\xff\x1c\0\0\0' >"$work/one.pcapng"
printf '\x01\0\0\0\x14\0\0\0\x65\0\0\0\0\0\x04\0\x14\0\0\0' >>"$work/one.pcapng"
printf '\x06\0\0\0\x34\0\0\0\0\0\0\0\0\0\0\0\0\0\0\0\x14\0\0\0\x14\0\0\0' >>"$work/one.pcapng"
printf '\x45\0\0\x14\0\0\0\0\x40\x63\0\0\x0a\0\0\x01\x0a\0\0\x02\x34\0\0\0' >>"$work/one.pcapng"

try_all "no memory" "$work/two.pcap" "$program" meter
try_all "no memory" "$work/two.pcap" "$program" meter --workers=3 --piece=1
try_all "no memory" "$work/two.pcap" "$program" meter --workers=4
try_all "no memory" "$work/two.pcap" "$pipe" pipe
try_all "no memory" "$work/two.pcap" "$pipe" pipe --workers=3 --queue=1
try_all "no memory" "$work/steps" "$program" schedule
try_all "no memory" "$work/two.ipfix" "$program" show
try_all "romtyalig-pair: no memory" "$work/two.ipfix" "$pair" pair
try_all "romtyalig-join: no memory" /dev/null "$join" join "$work/two.ipfix" "$work/two.ipfix"
try_all "romtyalig-pcapng: no memory" "$work/one.pcapng" "$pcapng" pcapng
try_all "no memory" "$work/many.pcap" "$program" meter --workers=4
try_all "no memory" "$work/thrice.pcap" "$program" meter --workers=4 --sets=1
try_all "no memory" "$work/many.pcap" "$pipe" pipe --workers=3
try_all "romtyalig-join: no memory" /dev/null "$join" join "$work/many.ipfix"
[ "$differ" -eq 0 ] && echo "right: $refused runs were out of memory"
[ "$differ" -eq 0 ]
