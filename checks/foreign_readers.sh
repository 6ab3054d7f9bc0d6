#!/bin/sh
# Compares what other programs read from the output of `meter` with what `show` says of it.
#
#     checks/foreign_readers.sh
#
# For the captures of examples/ and those of checks/generate.py, `meter` writes a stream; then tshark, and a small program
# over libfixbuf, decode it, and each of their lines, a field of a record at a time, has to be the line of `show`. One line
# per comparison, or one per reader that is missing; the last line counts. The status is not 0 where any line differs.
#
# ROMTYALIG is the program's path (bin/romtyalig unless set). Debian packages: tshark; libfixbuf-dev, gcc, pkg-config.
set -u

here=$(cd "$(dirname "$0")" && pwd)
top=$(dirname "$here")
program=${ROMTYALIG:-$top/bin/romtyalig}
export LC_ALL=C TZ=UTC

if [ ! -x "$program" ]; then
    echo "no program at $program" >&2
    exit 2
fi
if ! command -v python3 >/dev/null; then
    echo "no python3, so nothing is compared"
    exit 2
fi

work=$(mktemp -d) || exit 2
trap 'rm -rf "$work"' EXIT
trap 'exit 2' HUP INT TERM

same=0
different=0

readers=
if command -v tshark >/dev/null; then
    readers="tshark"
else
    echo "skipped: no tshark"
fi
if command -v "${CC:-cc}" >/dev/null && pkg-config --exists libfixbuf 2>/dev/null; then
    # shellcheck disable=SC2046 # the flags are words
    if "${CC:-cc}" -O1 -o "$work/fixbuf_records" "$here/fixbuf_records.c" $(pkg-config --cflags --libs libfixbuf); then
        readers="$readers libfixbuf"
    else
        echo "different: checks/fixbuf_records.c does not compile"
        different=$((different + 1))
    fi
else
    echo "skipped: no libfixbuf"
fi

# The lines of one reader: read_by READER STREAM SIZE
read_by() {
    case $1 in
    tshark)
        tshark -n -r "$2" -T pdml >"$work/pdml" 2>"$work/said" &&
            python3 -B "$here/tshark_records.py" "$3" <"$work/pdml" 2>>"$work/said"
        ;;
    libfixbuf)
        "$work/fixbuf_records" <"$2" 2>"$work/said"
        ;;
    esac
}

# One capture through `meter` with options, and its stream through each reader: compare CAPTURE SIZE [OPTION VALUE]..
compare() {
    capture=$1
    size=$2
    shift 2
    what="$(basename "$capture"), --size $size${*:+ $*}"
    if ! "$program" meter --size "$size" "$@" <"$capture" >"$work/stream.ipfix" 2>"$work/said" ||
        ! "$program" show <"$work/stream.ipfix" >"$work/shown" 2>>"$work/said"; then
        echo "different: $what: meter or show fails"
        sed 's/^/    /' "$work/said" | head -n 5
        different=$((different + 1))
        return
    fi
    if [ ! -s "$work/shown" ] && [ "$capture" != "$work/empty.pcap" ]; then
        echo "different: $what: no record"
        different=$((different + 1))
    fi
    for reader in $readers; do
        if ! read_by "$reader" "$work/stream.ipfix" "$size" >"$work/read"; then
            echo "different: $reader, $what: not read"
            tail -n 5 "$work/said" | sed 's/^/    /'
            different=$((different + 1))
        elif ! diff "$work/shown" "$work/read" >"$work/said"; then
            echo "different: $reader, $what"
            head -n 5 "$work/said" | sed 's/^/    /'
            different=$((different + 1))
        else
            echo "same: $reader, $what, records $(wc -l <"$work/shown")"
            same=$((same + 1))
        fi
    done
}

if [ -n "$readers" ]; then
    python3 -B "$here/generate.py" "$work" || exit 2
    for capture in "$top"/examples/*.pcap; do
        compare "$capture" 1400
    done
    compare "$work/empty.pcap" 1400
    compare "$work/expiry.pcap" 116 --idle 2 --active 5
    compare "$work/transports.pcap" 163
    compare "$work/extensions.pcap" 164
    compare "$work/cooked.pcap" 512
    compare "$work/late.pcap" 1400
    compare "$work/counts.pcap" 1400
    compare "$work/keys.pcap" 1400 --idle 86400 --active 86400
    compare "$work/keys.pcap" 65535 --idle 1
fi

echo "$((same + different)) comparisons, $different different"
if [ "$same" -eq 0 ] && [ -n "$readers" ]; then
    echo "nothing was compared, though a reader is installed:$readers"
    exit 1
fi
[ "$different" -eq 0 ]
