#!/bin/sh
# Compares what other programs read from the output of `romtyalig-pair` with the biflows of a second pairer.
#
#     checks/biflows.sh
#
# `meter` writes the flow records of the captures of examples/ and of checks/generate.py, `romtyalig-pair` their biflows, and
# second_pairer.py makes the biflows of the same records by the rule of docs/FORMATS.md. ipfixDump of libfixbuf, and tshark,
# decode the stream of biflows, and each of their lines, a field of a biflow at a time, has to be the second pairer's. One line
# per comparison, or one per reader that is missing; the last line counts. The status is not 0 where any line differs.
#
# ROMTYALIG and ROMTYALIG_PAIR are the programs' paths (bin/romtyalig and bin/romtyalig-pair unless set). Debian packages:
# libfixbuf-tools; tshark.
set -u

here=$(cd "$(dirname "$0")" && pwd)
top=$(dirname "$here")
program=${ROMTYALIG:-$top/bin/romtyalig}
filter=${ROMTYALIG_PAIR:-$top/bin/romtyalig-pair}
export LC_ALL=C TZ=UTC

for needed in "$program" "$filter"; do
    if [ ! -x "$needed" ]; then
        echo "no program at $needed" >&2
        exit 2
    fi
done
if ! command -v python3 >/dev/null; then
    echo "no python3, so nothing is compared"
    exit 2
fi

work=$(mktemp -d) || exit 2
trap 'rm -rf "$work"' EXIT
trap 'exit 2' HUP INT TERM

same=0
different=0

readers=
for reader in ipfixDump tshark; do
    if command -v "$reader" >/dev/null; then
        readers="$readers $reader"
    else
        echo "skipped: no $reader"
    fi
done

# The lines of one reader: read_by READER STREAM SIZE
read_by() {
    case $1 in
    ipfixDump)
        ipfixDump --in "$2" >"$work/dump" 2>"$work/said" &&
            python3 -B "$here/dumped_records.py" <"$work/dump" 2>>"$work/said"
        ;;
    tshark)
        tshark -n -r "$2" -T pdml >"$work/pdml" 2>"$work/said" &&
            python3 -B "$here/tshark_records.py" "$3" <"$work/pdml" 2>>"$work/said"
        ;;
    esac
}

# The biflows of one capture, through each reader: compare CAPTURE SIZE IDLE
compare() {
    what="$(basename "$1"), --size $2 --idle $3"
    if ! "$program" meter <"$1" >"$work/flows.ipfix" 2>"$work/said" ||
        ! "$program" show <"$work/flows.ipfix" >"$work/shown" 2>>"$work/said" ||
        ! "$filter" pair --size "$2" --idle "$3" <"$work/flows.ipfix" >"$work/biflows.ipfix" ||
        ! python3 -B "$here/second_pairer.py" lines "$3" <"$work/shown" >"$work/wanted" 2>>"$work/said"; then
        echo "different: $what: a program fails"
        sed 's/^/    /' "$work/said" | head -n 5
        different=$((different + 1))
        return
    fi
    for reader in $readers; do
        if ! read_by "$reader" "$work/biflows.ipfix" "$2" >"$work/read"; then
            echo "different: $reader, $what: not read"
            tail -n 5 "$work/said" | sed 's/^/    /'
            different=$((different + 1))
        elif ! diff "$work/wanted" "$work/read" >"$work/said"; then
            echo "different: $reader, $what"
            head -n 5 "$work/said" | sed 's/^/    /'
            different=$((different + 1))
        else
            echo "same: $reader, $what, biflows $(wc -l <"$work/wanted"), with a reverse $(grep -c 29305 "$work/wanted")"
            same=$((same + 1))
        fi
    done
}

if [ -n "$readers" ]; then
    python3 -B "$here/generate.py" "$work" || exit 2
    for capture in "$top"/examples/*.pcap; do
        compare "$capture" 1400 300
    done
    compare "$work/empty.pcap" 1400 300
    compare "$work/expiry.pcap" 308 2
    compare "$work/transports.pcap" 309 300
    compare "$work/extensions.pcap" 1400 300
    compare "$work/both_ways.pcap" 1400 2
    compare "$work/both_ways.pcap" 65535 86400
fi

echo "$((same + different)) comparisons, $different different"
if [ "$same" -eq 0 ] && [ -n "$readers" ]; then
    echo "nothing was compared, though a reader is installed:$readers"
    exit 1
fi
[ "$different" -eq 0 ]
