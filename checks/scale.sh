#!/bin/bash
# Runs the commands of docs/SCALE.md, and compares what each gives with what metering the one capture gives.
#
#     checks/scale.sh
#
# Each block there that is marked `run: NAME, with PROGRAM` is taken as it stands and run in a folder with the files
# that it names, but that for Slurm, which checks/slurm.sh runs. One line for each; a block whose program is missing
# is skipped with one line. Besides, examples/many.sh must make just what isn't there, say which capture is refused or
# left out, keep going where it is told to, and join by parts. The status is not 0 where any differs.
#
# ROMTYALIG and ROMTYALIG_JOIN are the programs' paths (bin/romtyalig and bin/romtyalig-join unless set). PACKETS is
# how many packets the capture has (60000 unless set).
# shellcheck disable=SC2317 # rows call functions by their names
set -u

top=$(dirname "$(cd "$(dirname "$0")" && pwd)")
program=$(realpath "${ROMTYALIG:-$top/bin/romtyalig}")
joiner=$(realpath "${ROMTYALIG_JOIN:-$top/bin/romtyalig-join}")
packets=${PACKETS:-60000}
export LC_ALL=C

for needed in "$program" "$joiner"; do
    if [ ! -x "$needed" ]; then
        echo "no program at $needed" >&2
        exit 2
    fi
done

work=$(mktemp -d) || exit 2
trap 'rm -rf "$work"' EXIT
trap 'exit 2' HUP INT TERM
mkdir "$work/bin"
ln -s "$program" "$work/bin/romtyalig"
ln -s "$joiner" "$work/bin/romtyalig-join"
PATH="$work/bin:$PATH"
cd "$work" || exit 2
romtyalig make --seed 1 --packets "$packets" >capture.pcap 2>/dev/null || exit 2
romtyalig meter <capture.pcap >wanted.ipfix 2>/dev/null || exit 2

# The commands of the block of this name.
block() {
    awk -v mark="<!-- run: $1, " 'index($0, mark) == 1 { found = 1; next }
        found && /^```sh/ { inside = 1; next }
        inside && /^```/ { exit }
        inside' "$top/docs/SCALE.md"
}

differ=0

# Runs something in a folder of its own: row NAME COMMAND..
row() {
    mkdir room && cd room || exit 2
    ln -s "$top/examples" examples
    if "${@:2}" 2>said; then
        echo "same: $1"
    else
        echo "DIFFERS: $1"
        head -n 5 said | sed 's/^/    /'
        differ=$((differ + 1))
    fi
    cd .. && rm -rf room
}

# Prepares, runs a block, and compares: compare NAME PROGRAM PREPARATION COMPARISON
compare() {
    if command -v "$2" >/dev/null; then
        row "$1" run "$@"
    else
        echo "skipped: $1, no $2"
    fi
}
run() {
    "$3" && block "$1" >commands && [ -s commands ] && bash -eu commands && "$4"
}

# The capture in so many pieces, by packets: cut FOLDER COUNT
cut() {
    mkdir -p "$1"
    python3 - "$1" "$2" <<'PYTHON'
import struct
import sys
from pathlib import Path

octets, places, count = Path("../capture.pcap").read_bytes(), [24], int(sys.argv[2])
while places[-1] < len(octets):
    places.append(places[-1] + 16 + struct.unpack_from("<L", octets, places[-1] + 8)[0])
cuts = [places[(len(places) - 1) * piece // count] for piece in range(count + 1)]
for number, (one, other) in enumerate(zip(cuts, cuts[1:])):
    Path(sys.argv[1], f"{number:02}.pcap").write_bytes(octets[:24] + octets[one:other])
PYTHON
}
meter_each() {
    local name stream
    mkdir -p "$2"
    for name in "$1"/*.pcap; do
        stream=$2/$(basename "$name" .pcap).ipfix
        romtyalig meter <"$name" >"$stream" 2>/dev/null || return
    done
}

whole_capture() { ln -s ../capture.pcap .; }
four_captures() { cut captures 4; }
four_streams() { cut captures 4 && meter_each captures streams; }
two_hours() {
    cut captures 5 && mkdir -p hours/00 hours/01 && meter_each captures all &&
        mv all/00.ipfix all/03.ipfix hours/00 && mv all/*.ipfix hours/01
}
three_streams() {
    cut captures 3 && meter_each captures all && mv all/00.ipfix a.ipfix && mv all/01.ipfix b.ipfix &&
        mv all/02.ipfix c.ipfix
}

some_captures() {
    [ "$(find captures -name '*.pcap' | wc -l)" -gt 1 ] && meter_each captures streams &&
        romtyalig-join join streams/*.ipfix >got && cmp got ../wanted.ipfix
}
same_flows() { cmp flows ../wanted.ipfix; }
same_stream() { cmp flows.ipfix ../wanted.ipfix; }
same_day() { cmp day.ipfix ../wanted.ipfix; }
same_one() { cmp one.ipfix ../wanted.ipfix; }
records() { for file in "$@"; do romtyalig show <"$file" 2>/dev/null || return; done | sort; }
same_parts() { records part-?.ipfix >got && records ../wanted.ipfix | cmp - got; }

# many.sh, without a document.
many() { examples/many.sh captures streams flows.ipfix; }
goes_on() {
    four_captures && many >/dev/null && rm streams/01.ipfix && touch -d '1 hour ago' streams/*.ipfix &&
        many >said.out && [ "$(wc -l <said.out)" -eq 2 ] && grep -q '^streams/01.ipfix: ' said.out &&
        grep -q '^flows.ipfix: ' said.out && same_stream && [ -z "$(many)" ]
}
by_parts() {
    four_captures && PARTS=3 many >/dev/null && records flows.?.ipfix >got && [ ! -e flows.ipfix ] &&
        records ../wanted.ipfix | cmp - got
}
is_refused() {
    four_captures && echo none >captures/bad.pcap && ! many >/dev/null 2>said.err && [ ! -e flows.ipfix ] &&
        [ ! -e streams/bad.ipfix ] && [ "$(find streams -type f | wc -l)" -eq 4 ] &&
        [ "$(cat said.err)" = "captures/bad.pcap: not made into streams/bad.ipfix, status 4: not a capture" ]
}
keeps_going() {
    four_captures && echo none >captures/bad.pcap || return
    examples/many.sh --keep-going captures streams flows.ipfix >/dev/null 2>said.err
    [ $? -eq 1 ] && grep -q '^captures/bad.pcap: not made ' said.err && same_stream &&
        rm flows.ipfix && ! PARTS=2 examples/many.sh --keep-going captures streams flows.ipfix >/dev/null 2>said.err &&
        records flows.?.ipfix >got && records ../wanted.ipfix | cmp - got
}
names_others() {
    four_captures && cp captures/00.pcap captures/c.pcapng && gzip <captures/00.pcap >captures/b.pcap.gz &&
        cp captures/00.pcap "captures/a capture" && many >/dev/null 2>said.err && same_stream &&
        printf 'many.sh: left out: captures/%s\n' "a capture (its name doesn't end in .pcap)" 'b.pcap.gz (compressed)' \
            'c.pcapng (for romtyalig-pcapng)' | cmp - said.err
}
has_none() {
    mkdir captures && ! many 2>said.err && [ "$(cat said.err)" = "many.sh: no captures in captures" ] && [ ! -e streams ]
}
by_steps() {
    four_captures && mkdir streams && find captures -name '*.pcap' -exec examples/many.sh --meter streams {} ';' >/dev/null &&
        examples/many.sh --join captures streams flows.ipfix >/dev/null && same_stream
}
by_time_outs() {
    four_captures && TIMEOUTS="--idle 1 --active 2" many >/dev/null && meter_each captures other &&
        ! cmp -s streams/00.ipfix other/00.ipfix &&
        romtyalig-join join --idle 1 --active 2 streams/*.ipfix | cmp - flows.ipfix
}

compare packets editcap whole_capture some_captures
compare bytes tcpdump whole_capture some_captures
compare xargs xargs four_captures same_flows
compare many xargs four_captures same_stream
compare days romtyalig-join two_hours same_day
compare parts romtyalig-join four_streams same_parts
compare order romtyalig-join three_streams same_one
row "many.sh goes on where it was stopped" goes_on
row "many.sh by parts" by_parts
row "many.sh by its single steps" by_steps
row "many.sh and a capture that is refused" is_refused
row "many.sh keeps going" keeps_going
row "many.sh names what it leaves out" names_others
row "many.sh and no captures" has_none
row "many.sh with other time-outs" by_time_outs
exit $((differ > 0))
