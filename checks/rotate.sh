#!/bin/bash
# examples/rotate.sh meters rotated captures, also behind tcpdump on the loopback interface, and keeps its limits.
#
#     checks/rotate.sh
#
# One line for each row. The commands for tcpdump are taken out of docs/RECIPES.md, with another interface, time,
# folder and path of the script, and a filter. Where tcpdump or its user is missing, or this isn't run as root, that is
# skipped with one line, and so is what needs systemd-analyze. The status is not 0 where any differs. ROMTYALIG is the
# program's path (bin/romtyalig unless set).
set -u

top=$(dirname "$(cd "$(dirname "$0")" && pwd)")
program=${ROMTYALIG:-$top/bin/romtyalig}
script=$top/examples/rotate.sh
export LC_ALL=C METER="$program meter"

if [ ! -x "$program" ]; then
    echo "no program at $program" >&2
    exit 2
fi
work=$(mktemp -d) || exit 2
dumping=
receiving=
# shellcheck disable=SC2329 # it is called by the trap
clean() {
    [ -z "$dumping" ] || kill "$dumping" 2>/dev/null
    [ -z "$receiving" ] || kill "$receiving" 2>/dev/null
    rm -rf "$work"
}
trap clean EXIT
trap 'exit 2' HUP INT TERM

differ=0
row() {
    if "$2"; then
        echo "same: $1"
    else
        echo "DIFFERS: $1"
        differ=$((differ + 1))
    fi
}

# Whether each capture of a folder has its stream, and there are at least so many: are_metered FOLDER COUNT
are_metered() {
    local count=0 file
    for file in "$1"/*.pcap; do
        "$program" meter <"$file" 2>/dev/null | cmp -s - "${file%.pcap}.ipfix" || return 1
        count=$((count + 1))
    done
    [ "$count" -ge "$2" ] && [ -z "$(find "$1" -name '*.part' -o -name '*.stderr')" ]
}

metered() {
    mkdir "$work/plain"
    cp "$top"/examples/*.pcap "$work/plain"
    "$script" "$work"/plain/*.pcap >"$work/said" && are_metered "$work/plain" 2 &&
        grep -q '^.*web-exchange.pcap: captured 10 accepted 9 ' "$work/said"
}

# A damaged capture stays, without a stream; the others are metered.
refused() {
    mkdir "$work/bad"
    cp "$top/examples/web-exchange.pcap" "$work/bad/b.pcap"
    echo "no capture" >"$work/bad/a.pcap"
    "$script" --rest "$work/bad" >/dev/null 2>"$work/said"
    [ $? -eq 1 ] && grep -q 'a.pcap: not metered: not a capture' "$work/said" && [ -e "$work/bad/a.pcap" ] &&
        [ ! -e "$work/bad/a.ipfix" ] && [ -e "$work/bad/b.ipfix" ]
}

# Ten captures of 440,024 bytes each: the two youngest fit a megabyte, and all ten streams fit another.
limited() {
    mkdir "$work/many"
    for number in 0 1 2 3 4 5 6 7 8 9; do
        "$program" make --seed "$number" --packets 10000 >"$work/many/$number.pcap" 2>/dev/null || return 1
        touch -d "@$((1700000000 + number))" "$work/many/$number.pcap"
    done
    KEEP_CAPTURES=1 KEEP_STREAMS=1 "$script" "$work"/many/*.pcap >/dev/null &&
        [ "$(cd "$work/many" && echo *.pcap)" = "8.pcap 9.pcap" ] && [ "$(find "$work/many" -name '*.ipfix' | wc -l)" -eq 10 ]
}

# Streams have a limit too, and a capture without its stream isn't removed.
limited_streams() {
    "$program" make --seed 1 --packets 10000 >"$work/many/new.pcap" 2>/dev/null
    head -c 1100000 /dev/zero >"$work/many/old.ipfix"
    touch -d "@1600000000" "$work/many/old.ipfix"
    echo "no capture" >"$work/many/kept.pcap"
    KEEP_CAPTURES=0 KEEP_STREAMS=1 "$script" "$work/many/new.pcap" >/dev/null &&
        [ "$(cd "$work/many" && echo *.pcap)" = "kept.pcap" ] && [ ! -e "$work/many/old.ipfix" ]
}

# tcpdump -C counts its files behind the ending.
counted() {
    mkdir "$work/counted"
    for number in "" 1 2; do
        cp "$top/examples/web-exchange.pcap" "$work/counted/piece.pcap$number"
    done
    "$script" "$work/counted/piece.pcap" >/dev/null && KEEP_CAPTURES=0 "$script" --rest "$work/counted" >/dev/null &&
        [ "$(cd "$work/counted" && echo *)" = "piece.ipfix piece1.ipfix piece2.ipfix" ]
}

# Each stream is handed on; where that fails it stays.
sent() {
    mkdir "$work/sent"
    cp "$top"/examples/*.pcap "$work/sent"
    SEND="tee -a $work/got" "$script" "$work"/sent/*.pcap >/dev/null || return 1
    cat "$work"/sent/*.ipfix | cmp - "$work/got" && rm "$work"/sent/*.ipfix || return 1
    SEND="cat $work/missing" "$script" --rest "$work/sent" >/dev/null 2>"$work/said"
    [ $? -eq 1 ] && [ "$(grep -c 'sent/.*ipfix: not sent, status 1: cat: .*missing' "$work/said")" -eq 2 ] && are_metered "$work/sent" 2
}

# What isn't there has one line, but a capture that another call metered and removed has none.
missing() {
    "$script" "$work/plain/none.pcap" 2>"$work/said"
    [ $? -eq 1 ] && [ "$(cat "$work/said")" = "rotate.sh: no file $work/plain/none.pcap" ] || return 1
    touch "$work/plain/gone.ipfix"
    [ -z "$("$script" "$work/plain/gone.pcap" 2>&1)" ]
}

count_of() { find "$work/$1" -name "*.$2" | wc -l; }

# The commands of a block of docs/RECIPES.md on loopback, in files of a second, with a datagram each tenth of a second, until all
# files that tcpdump closed are metered. tcpdump goes on as another user, so the program and the scripts lie where that user may
# read: dump BLOCK FOLDER
dump() {
    mkdir -p "$work/bin"
    cp "$program" "$work/bin/romtyalig"
    cp "$top"/examples/*.sh "$top"/examples/*.py "$work/bin"
    chmod 755 "$work" "$work/bin" "$work"/bin/*
    awk -v mark="<!-- run: $1, " 'index($0, mark) == 1 { found = 1; next }
        found && /^```sh/ { inside = 1; next }
        inside && /^```/ { exit }
        inside' "$top/docs/OPERATORS.md" "$top/docs/RECIPES.md" | sed -e "s,/usr/share/doc/romtyalig/examples,$work/bin,g" \
        -e "s,/var/lib/romtyalig,$work/$2,g" -e 's/ tcpdump -i eth0 / exec tcpdump -i lo /' -e 's/ -G [0-9]* / -G 1 /' \
        -e 's/192.0.2.9 4739/127.0.0.1 47476/' -e '$s/$/ udp and port 47475/' >"$work/commands"
    METER="$work/bin/romtyalig meter" bash -eu "$work/commands" >"$work/lines" 2>"$work/said" &
    dumping=$!
    python3 - <<'PYTHON'
import socket
import time
with socket.socket(socket.AF_INET, socket.SOCK_DGRAM) as sender:
    for number in range(50):
        sender.sendto(bytes(number), ("127.0.0.1", 47475))
        time.sleep(0.1)
PYTHON
    kill "$dumping"
    wait "$dumping"
    dumping=
    for _ in $(seq 60); do
        [ "$(count_of "$2" ipfix)" -lt $(($(count_of "$2" pcap) - 1)) ] || break
        sleep 0.5
    done
    [ "$(count_of "$2" ipfix)" -ge 2 ]
}

dumped() {
    dump rotated dumped && "$script" --rest "$work/dumped" >>"$work/lines" 2>>"$work/said"
    are_metered "$work/dumped" 3 && grep -q 'accepted [1-9]' "$work/lines"
}

# The records of streams, in order of their lines.
records() { for file in "$@"; do "$program" show <"$file" 2>/dev/null || return; done | sort; }

# What a collector gets are the records of all streams, with sequence numbers that go on.
handed() {
    python3 - "$work/received" <<'PYTHON' &
import socket
import sys
with socket.socket(socket.AF_INET, socket.SOCK_DGRAM) as receiver, open(sys.argv[1], "wb", buffering=0) as out:
    receiver.bind(("127.0.0.1", 47476))
    receiver.settimeout(60)
    while True:
        out.write(receiver.recv(65535))
PYTHON
    receiving=$!
    dump handed handed || return
    for _ in $(seq 20); do
        [ "$(records "$work/received")" != "$(records "$work"/handed/*.ipfix)" ] || break
        sleep 0.5
    done
    kill "$receiving" && receiving=
    records "$work"/handed/*.ipfix >"$work/wanted" && records "$work/received" | cmp - "$work/wanted" &&
        python3 - "$work/received" <<'PYTHON'
import struct
import sys
octets, at, following = open(sys.argv[1], "rb").read(), 0, 0
while at < len(octets):
    length, sequence, kind, size = struct.unpack_from("!2xH4xL4xHH", octets, at)
    assert sequence == following, f"{sequence} and not {following}"
    following += (size - 4) // 48 if kind == 256 else 0
    at += length
PYTHON
}

# The unit is one that systemd takes, with its programs where they are here.
unit() {
    sed -e "s,/usr/share/doc/romtyalig/examples/rotate.sh,$script,g" \
        -e "s,/usr/bin/tcpdump,$(command -v tcpdump || echo /bin/true)," -e '/^Documentation/d' "$top/examples/romtyalig-rotate.service" >"$work/romtyalig-rotate.service"
    systemd-analyze verify "$work/romtyalig-rotate.service" >"$work/said" 2>&1 && ! grep -q 'romtyalig-rotate' "$work/said"
}

row "captures are metered" metered
row "a capture that is refused stays" refused
row "captures have a limit" limited
row "streams have a limit" limited_streams
row "captures with a number behind the ending" counted
row "streams are handed on" sent
row "a missing capture" missing
if ! command -v tcpdump >/dev/null || ! command -v python3 >/dev/null; then
    echo "skipped: no tcpdump"
elif [ "$(id -u)" -ne 0 ] || ! id tcpdump >/dev/null 2>&1; then
    echo "skipped: not root, or no user tcpdump"
else
    row "tcpdump on loopback" dumped
    row "tcpdump on loopback, and a collector" handed
fi
if command -v systemd-analyze >/dev/null; then
    row "the unit" unit
else
    echo "skipped: no systemd-analyze"
fi
[ "$differ" -eq 0 ]
