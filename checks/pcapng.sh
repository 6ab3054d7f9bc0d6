#!/bin/sh
# Compares the flows of pcapng files with those that a second meter finds in the captures that they were made from.
#
#     checks/pcapng.sh
#
# editcap and dumpcap (Debian package wireshark-common) write each capture of examples/ anew: editcap as classic pcap, with
# microseconds and with nanoseconds, and each of these as pcapng; dumpcap, which reads the capture from a pipe, as classic pcap
# and as pcapng. Each pcapng file goes through `romtyalig-pcapng`. For every file `meter` must write the stream that
# second_meter.py writes of the capture itself. One line for each comparison, or one if a tool is missing; the last line
# counts. The status is not 0 if any differs, or if nothing was compared.
#
# ROMTYALIG and ROMTYALIG_PCAPNG are the programs' paths (bin/romtyalig and bin/romtyalig-pcapng unless set).
set -u

here=$(cd "$(dirname "$0")" && pwd)
top=$(dirname "$here")
program=${ROMTYALIG:-$top/bin/romtyalig}
filter=${ROMTYALIG_PCAPNG:-$top/bin/romtyalig-pcapng}
export LC_ALL=C TZ=UTC

for needed in "$program" "$filter"; do
    if [ ! -x "$needed" ]; then
        echo "no program at $needed" >&2
        exit 2
    fi
done
for needed in editcap dumpcap; do
    if ! command -v "$needed" >/dev/null; then
        echo "skipped: no $needed (package wireshark-common)"
        exit 0
    fi
done

work=$(mktemp -d) || exit 2
trap 'rm -rf "$work"' EXIT
trap 'exit 2' HUP INT TERM

same=0
differ=0

# Compares the stream of a classic capture with the one wanted.
compare() {
    if "$program" meter <"$2" >"$work/stream" 2>"$work/summary" && cmp -s "$work/wanted" "$work/stream"; then
        echo "same: $1"
        same=$((same + 1))
    else
        echo "DIFFERS: $1"
        differ=$((differ + 1))
    fi
}

# The same for a pcapng file.
compare_pcapng() {
    "$filter" pcapng <"$2" >"$work/written" || : >"$work/written"
    compare "$1" "$work/written"
}

for capture in "$top"/examples/*.pcap; do
    name=$(basename "$capture" .pcap)
    python3 -B "$here/second_meter.py" --stream <"$capture" >"$work/wanted" || exit 2
    for format in pcap nsecpcap; do
        editcap -F "$format" "$capture" "$work/classic" || exit 2
        compare "$name, $format of editcap" "$work/classic"
        editcap -F pcapng "$work/classic" "$work/file.pcapng" || exit 2
        compare_pcapng "$name, pcapng of editcap from $format" "$work/file.pcapng"
    done
    dumpcap -q -P -i - -w "$work/dumped" <"$capture" 2>/dev/null || exit 2
    compare "$name, pcap of dumpcap" "$work/dumped"
    dumpcap -q -n -i - -w "$work/dumped" <"$capture" 2>/dev/null || exit 2
    compare_pcapng "$name, pcapng of dumpcap" "$work/dumped"
done
echo "$same the same, $differ that differ"
[ "$differ" -eq 0 ] && [ "$same" -gt 0 ]
