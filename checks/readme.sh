#!/bin/bash
# Runs the commands of README.md as they stand there, and compares what they give with what README.md says.
#
#     checks/readme.sh
#
# The blocks marked `run: sample`, `run: report` and `run: capture`, and the commands for pcapng, for cutting and for parts in the
# text, are taken out of README.md and run in a folder with bin/, examples/ and man/. What the first prints must be the records that it
# shows, and standard error must have the counts that it names. The capture is of the loopback interface, with datagrams
# that this script sends. Besides, the programs are installed below a folder, a manual page is read, and a call is found by the
# command of docs/PROVED.md. What needs a program that is missing (packages python3-ipfix, miller, gnuplot-nox, tcpdump,
# wireshark-common, man-db, git), another toolchain or the right to capture is skipped with one line. The status is not 0
# where anything differs.
# shellcheck disable=SC2016,SC2317,SC2329 # rows and the trap call functions by their names; marks have backticks
set -u

top=$(dirname "$(cd "$(dirname "$0")" && pwd)")
export LC_ALL=C
if [ ! -x "$top/bin/romtyalig" ]; then
    echo "no program at $top/bin/romtyalig" >&2
    exit 2
fi
work=$(mktemp -d) || exit 2
sending=
clean() {
    [ -z "$sending" ] || kill "$sending" 2>/dev/null
    rm -rf "$work"
}
trap clean EXIT
trap 'exit 2' HUP INT TERM
ln -s "$top/bin" "$top/examples" "$top/man" "$work"
cd "$work" || exit 2
differ=0

# The block behind a mark.
block() {
    awk -v mark="<!-- $1 -->" '
        $0 == mark { found = 1; next }
        found && /^```/ { if (inside) exit; inside = 1; next }
        inside' "$top/README.md"
}

# One line: row NAME FUNCTION, or of programs that it needs: row NAME FUNCTION PROGRAM..
row() {
    local needed
    for needed in "${@:3}"; do
        if ! command -v "$needed" >/dev/null; then
            echo "skipped: $1, no $needed"
            return
        fi
    done
    if "$2"; then
        echo "same: $1"
    else
        echo "DIFFERS: $1"
        [ ! -s stderr ] || head -n 5 stderr | sed 's/^/    /'
        differ=1
    fi
}

# The commands of standard input, as a reader types them in one shell: typed OUTPUT
typed() {
    { echo "${search:-}"; cat; } >commands
    [ "$(grep -c . commands)" -gt 1 ] && timeout 300 bash -eu commands >"$1" 2>stderr
}

reported() {
    local line
    for line in "$@"; do
        grep -qx "$line" stderr || return 1
    done
}

toolchain() { [ -n "$toolchain" ] && grep -qF "\`$toolchain\`" "$top/docs/PROVED.md"; }

sample() {
    # A line that begins with spaces goes on with the line before it.
    block "shown by: sample" | sed -e :a -e '$!N; s/\n  */ /; ta' -e 'P; D' >wanted
    block "run: sample" | typed out && [ "$(wc -l <wanted)" -eq 4 ] && cmp out wanted &&
        reported 'captured 10' 'accepted 9' 'not-ip 1' 'records 4'
}

report() { block "run: report" | typed out && grep -q '</html>' report.html && grep -q 'Top biflows' report.html; }

# Datagrams on the loopback interface, until they are no longer wanted.
send() {
    python3 - <<'PYTHON' &
import socket
import time
with socket.socket(socket.AF_INET, socket.SOCK_DGRAM) as sender:
    for number in range(3000):
        sender.sendto(bytes(number % 500), ("127.0.0.1", 47475))
        time.sleep(0.01)
PYTHON
    sending=$!
}

capture() {
    block "run: capture" | typed out && reported 'captured 100' && grep -qx 'accepted [1-9][0-9]*' stderr &&
        [ -s flows.ipfix ]
}

pcapng() {
    editcap -F pcapng examples/web-exchange.pcap mine.pcapng &&
        sed -n 's/.*`\(romtyalig-pcapng pcapng <[^`]*\)`.*/\1/p' "$top/README.md" | typed out &&
        bin/romtyalig meter <mine.pcap 2>stderr | cmp - examples/web-exchange.ipfix
}

cut() {
    cp examples/web-exchange.pcap large.pcap
    sed -n 's/.*`\(editcap -F pcap [^`]*\)`.*/\1/p' "$top/README.md" | typed out || return 1
    bin/romtyalig meter <"$(ls piece_*.pcap)" 2>stderr | cmp - examples/web-exchange.ipfix
}

# The parts are together the records of the whole.
parts() {
    local command part
    command=$(sed -n 's/.*`\(romtyalig-join join --part K [^`]*\)`.*/\1/p' "$top/README.md")
    cp examples/web-exchange.ipfix large.ipfix
    for part in 1 2 3; do
        echo "$command" | sed "s/ K / $part /; s/-K/-$part/; s/ N / 3 /" | typed told || return 1
        bin/romtyalig show <"part-$part.ipfix" 2>stderr || return 1
    done | sort >out
    bin/romtyalig show <large.ipfix 2>stderr | sort | cmp - out
}

# Of all interfaces tcpdump writes Linux cooked mode, in version 2 (link type 276) unless told.
any_interface() {
    tcpdump -i any -c 20 -w any.pcap 2>stderr && tcpdump -i any -y LINUX_SLL -c 20 -w cooked.pcap 2>stderr || return 1
    bin/romtyalig meter <cooked.pcap 2>stderr >flows.ipfix && reported 'captured 20' || return 1
    bin/romtyalig meter <any.pcap 2>stderr >flows.ipfix || reported 'link type 276'
}

# The command by which docs/PROVED.md finds a call.
calls() {
    (cd "$top" && sed -n "s/.*\`\(git grep [^\`]*\)\` finds a call.*/\1/p" docs/PROVED.md | bash -eu) >out 2>stderr &&
        grep -q '^crates/meter_program/src/running.rt:' out
}

page() { man man/romtyalig.1 2>stderr | grep -q 'short-transport'; }

# What is built is installed as it is.
installed() {
    make -s -C "$top" -o build install PREFIX="$work/installed" >stderr 2>&1 &&
        cmp "$top/bin/romtyalig" installed/bin/romtyalig && [ -s installed/share/man/man1/romtyalig.1 ]
}

toolchain=$(sed -n 's/.*`rt version` says `\([^`]*\)`.*/\1/p' "$top/README.md")
if [ -n "$toolchain" ] && [ "$(rt version 2>&1)" != "$toolchain" ]; then
    echo "skipped: toolchain, $(rt version 2>&1 | head -n 1)"
else
    row toolchain toolchain
fi
row sample sample python3
search=$(block "run: sample" | head -n 1)
row report report ipfix2csv mlr gnuplot
if [ "$(id -u)" -ne 0 ] && ! timeout 5 tcpdump -i lo -c 0 -w /dev/null >/dev/null 2>&1; then
    echo "skipped: capture, no tcpdump or no right to capture"
else
    send
    row capture capture tcpdump python3
    row "any interface" any_interface tcpdump python3
fi
row pcapng pcapng editcap
row cut cut editcap
row parts parts
row "manual page" page man
if git -C "$top" rev-parse >/dev/null 2>&1; then
    row calls calls git
else
    echo "skipped: calls, no git or no clone"
fi
row install installed make
exit "$differ"
