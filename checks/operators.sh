#!/bin/bash
# Runs the commands of docs/OPERATORS.md and docs/RECIPES.md, and compares what each gives with what `show` says of the same flows.
#
#     checks/operators.sh
#
# Each block there that is marked `run: NAME, with PROGRAM` is taken as it stands and run in a folder with the files that it
# names, and nothing else is prepared there; that of a compressed capture also with `xz -dc` and `zstd -dc`, of which the text above
# it says that they work as well. One line for each; a block whose program is missing is skipped with one line, and so is what only
# root may do. The blocks `rotated` and `handed` are run by checks/rotate.sh. The status is not 0 where any differs.
#
# ROMTYALIG, ROMTYALIG_PIPE, ROMTYALIG_PCAPNG, ROMTYALIG_PAIR, ROMTYALIG_JOIN and ROMTYALIG_WATCH are the programs' paths
# (bin/romtyalig, bin/romtyalig-pipe, bin/romtyalig-pcapng, bin/romtyalig-pair, bin/romtyalig-join and bin/romtyalig-watch unless set).
set -u

here=$(cd "$(dirname "$0")" && pwd)
top=$(dirname "$here")
program=${ROMTYALIG:-$top/bin/romtyalig}
pipe=${ROMTYALIG_PIPE:-$top/bin/romtyalig-pipe}
filter=${ROMTYALIG_PCAPNG:-$top/bin/romtyalig-pcapng}
pair=${ROMTYALIG_PAIR:-$top/bin/romtyalig-pair}
join=${ROMTYALIG_JOIN:-$top/bin/romtyalig-join}
watch=${ROMTYALIG_WATCH:-$top/bin/romtyalig-watch}
export LC_ALL=C TZ=UTC

for needed in "$program" "$pipe" "$filter" "$pair" "$join" "$watch"; do
    if [ ! -x "$needed" ]; then
        echo "no program at $needed" >&2
        exit 2
    fi
done

work=$(mktemp -d) || exit 2
trap 'rm -rf "$work"' EXIT
trap 'exit 2' HUP INT TERM
mkdir "$work/bin" "$work/captures"
ln -s "$program" "$work/bin/romtyalig"
ln -s "$pipe" "$work/bin/romtyalig-pipe"
ln -s "$filter" "$work/bin/romtyalig-pcapng"
ln -s "$pair" "$work/bin/romtyalig-pair"
ln -s "$join" "$work/bin/romtyalig-join"
ln -s "$watch" "$work/bin/romtyalig-watch"
ln -s "$top/examples" "$work/examples"
PATH="$work/bin:$PATH"
cd "$work" || exit 2

cp examples/web-exchange.pcap capture.pcap
gzip -k capture.pcap
command -v xz >/dev/null && xz -k capture.pcap
command -v zstd >/dev/null && zstd -q -k capture.pcap
python3 - <<'PYTHON'
# The capture in two, cut behind its fourth record.
import struct
capture = open('capture.pcap', 'rb').read()


def frames():
    """The time, in two numbers, and the bytes of each frame."""
    place = 24
    while place < len(capture):
        seconds, fraction, held, _ = struct.unpack_from('<4L', capture, place)
        yield seconds, fraction, capture[place + 16:place + 16 + held]
        place += 16 + held


def write_other(name, link_type, changed):
    """Writes a capture of another link type, with all that `changed` makes of each frame and its number."""
    with open(name, 'wb') as out:
        out.write(struct.pack('<LHHLLLL', 0xA1B2C3D4, 2, 4, 0, 0, 65535, link_type))
        for number, (seconds, fraction, frame) in enumerate(frames()):
            for other in changed(number, frame):
                out.write(struct.pack('<4L', seconds, fraction, len(other), len(other)) + other)


# Every packet in no VLAN and in two.
write_other('vlans.pcap', 1, lambda _, frame: [
    frame, *(frame[:12] + bytes((0x81, 0, 0, vlan)) + frame[12:] for vlan in (7, 8))])
# Linux cooked version 2 and the loopback interfaces of BSD, whose frames begin with the address family, with ARP and ISO beside IP.
write_other('any.pcap', 276, lambda _, frame: [
    frame[12:14] + bytes((0, 0, 0, 0, 0, 1, 0, 1, 0, 6)) + frame[6:12] + bytes(2) + frame[14:]])


def loopback(order):
    return lambda _, frame: [struct.pack(order, 2 if frame[12:14] == b'\x08\x00' else 7) + frame[14:]]


write_other('loopback.pcap', 0, loopback('<L'))
write_other('bsd-loopback.pcap', 108, loopback('>L'))


def in_session(tag):
    """PPPoE with this tag; IP in a session, and besides a session's own frames, a search for one, and the frame by itself."""
    def changed(_, frame):
        kind, packet = (b'\x00\x21', frame[14:]) if frame[12:14] == b'\x08\x00' else (b'\xc0\x21', bytes((9, 1, 0, 8)) + bytes(4))
        session = bytes((0x88, 0x64, 0x11, 0, 0, 5)) + struct.pack('>H', 2 + len(packet)) + kind + packet
        search = bytes((0x88, 0x63, 0x11, 9, 0, 0, 0, 0))
        return [frame[:12] + tag + session, frame[:12] + search, frame]
    return changed


write_other('pppoe.pcap', 1, in_session(b''))
write_other('tagged-pppoe.pcap', 1, in_session(bytes((0x81, 0, 0, 7))))


def behind_labels(number, frame):
    """IP behind one label, two or three; besides Ethernet behind one, and the frame by itself."""
    def stack(count):
        return frame[:12] + b'\x88\x47' + b''.join(
            struct.pack('>L', (100 + place) << 12 | (place == count - 1) << 8 | 64) for place in range(count))
    packet = [stack(1 + number % 3) + frame[14:]] if frame[12:14] == b'\x08\x00' else []
    return [*packet, stack(1) + frame, frame]


write_other('mpls.pcap', 1, behind_labels)
place = 24
for _ in range(4):
    place += 16 + struct.unpack_from('<L', capture, place + 8)[0]
open('first.pcap', 'wb').write(capture[:place])
open('second.pcap', 'wb').write(capture[:24] + capture[place:])

# The capture with so many tags of type 0x9100 in its frames, in turn.
def write_tagged(name, tags):
    with open(name, 'wb') as out:
        out.write(capture[:24])
        place, number = 24, 0
        while place < len(capture):
            seconds, fraction, held, length = struct.unpack_from('<4L', capture, place)
            frame = capture[place + 16:place + 16 + held]
            tag = bytes.fromhex('91000005') * tags[number % len(tags)]
            out.write(struct.pack('<4L', seconds, fraction, held + len(tag), length + len(tag)))
            out.write(frame[:12] + tag + frame[12:])
            place, number = place + 16 + held, number + 1


write_tagged('old-tags.pcap', [0, 1])
write_tagged('two-tags.pcap', [0, 1, 2])


def write(name, frames):
    with open(name, 'wb') as out:
        out.write(struct.pack('<LHHLLLL', 0xA1B2C3D4, 2, 4, 0, 0, 65535, 101))
        for number, frame in enumerate(frames):
            out.write(struct.pack('<4L', 1_700_000_000 + number, 0, len(frame), len(frame)) + frame)


# An IPv4 packet, its addresses by their last octet.
def packet(protocol, source, target, payload):
    addresses = bytes((10, 0, 0, source, 10, 0, 0, target))
    return struct.pack('>BBHHHBBH', 0x45, 0, 20 + len(payload), 0, 0, 64, protocol, 0) + addresses + payload


# To a port of two hosts, of which one is in the prefix, and to another port.
def segment(port):
    return struct.pack('>HHLLHHHH', 50000, port, 1, 1, 0x5010, 1000, 0, 0)


write('big.pcap', [packet(6, 1, 2, segment(443)), packet(6, 1, 2, segment(443)), packet(6, 1, 2, segment(80)),
                   packet(6, 1, 2, segment(443)).replace(bytes((10, 0, 0)), bytes((192, 0, 2)))])


# Two echo requests, a reply, and a port unreachable that quotes a datagram.
datagram = packet(17, 1, 2, bytes.fromhex('0005000600080000'))
kinds = [(1, 2, '0800', b''), (2, 1, '0000', b''), (1, 2, '0800', b''), (2, 1, '0303', datagram)]
write('icmp.pcap', [packet(1, *ends, bytes.fromhex(kind) + bytes(6) + quoted) for *ends, kind, quoted in kinds])


# An ICMPv6 packet, likewise.
def packet_of_six(source, target, kind):
    payload = bytes.fromhex(kind) + bytes(6)
    addresses = bytes.fromhex(f'20010db8{source:024x}20010db8{target:024x}')
    return struct.pack('>LHBB', 6 << 28, len(payload), 58, 64) + addresses + payload


# Two echo requests and a reply.
write('icmpv6.pcap', [packet_of_six(1, 2, '8000'), packet_of_six(2, 1, '8100'), packet_of_six(1, 2, '8000')])
PYTHON
command -v editcap >/dev/null && editcap -F pcapng capture.pcap capture.pcapng
romtyalig meter <capture.pcap >wanted.ipfix 2>/dev/null
romtyalig show <wanted.ipfix >lines 2>/dev/null
romtyalig make --seed 1 --packets 40000 >large.pcap 2>/dev/null
romtyalig meter <large.pcap >large.ipfix 2>/dev/null
gzip large.pcap

# The values of fields of each record, a line each: values 8 12
values() {
    awk -v wanted="$*" '{
        split("", value)
        for (i = 2; i <= NF; i++) { split($i, pair, "="); value[pair[1]] = pair[2] }
        count = split(wanted, names, " ")
        line = value[names[1]]
        for (i = 2; i <= count; i++) line = line " " value[names[i]]
        print line
    }' lines
}

# The commands of the block of this name.
block() {
    awk -v mark="<!-- run: $1, " 'index($0, mark) == 1 { found = 1; next }
        found && /^```sh/ { inside = 1; next }
        inside && /^```/ { exit }
        inside' "$top/docs/OPERATORS.md" "$top/docs/RECIPES.md"
}

same=0
differ=0

# Runs a block and then its comparison: compare NAME PROGRAM COMPARISON, with several programs in one word. For another form of a
# block, FORM of BLOCK, a fourth word edits its commands: what `sed` is to do.
compare() {
    for needed in $2; do
        if ! command -v "$needed" >/dev/null; then
            echo "skipped: $1, no $needed"
            return
        fi
    done
    block "${1##* of }" | sed "${4-}" >commands
    if [ -s commands ] && bash -eu commands >out 2>said && "$3"; then
        echo "same: $1"
        same=$((same + 1))
    else
        echo "DIFFERS: $1"
        head -n 5 said | sed 's/^/    /'
        differ=$((differ + 1))
    fi
}

same_stream() { cmp flows.ipfix wanted.ipfix && rm flows.ipfix; }
# The same, of a command that the document names in passing.
named_stream() { grep -qF "\`$(cut -d ' ' -f 1,2 commands)\`" "$top/docs/OPERATORS.md" "$top/docs/RECIPES.md" && same_stream; }
same_lines() { cmp out lines; }
# By type and code: how many packets each address sent, and the flow of the two requests.
same_types() {
    printf ' %s\n' '1 10.0.0.2 10.0.0.1 0 0' '1 10.0.0.2 10.0.0.1 3 3' '2 10.0.0.1 10.0.0.2 8 0' >wanted
    tr -s ' \t' ' ' <out | sort | cmp - wanted && romtyalig show <flows.ipfix 2>/dev/null >got &&
        [ "$(wc -l <got)" -eq 1 ] && grep -q ' 8=10.0.0.1 .* 4=1 .* 2=2 ' got
}
# The flow of the two requests over IPv6.
same_requests() {
    romtyalig show <flows.ipfix 2>/dev/null >got && [ "$(wc -l <got)" -eq 1 ] &&
        grep -q ' 27=20010db80*1 .* 4=58 .* 2=2 ' got
}
same_dump() {
    grep -ho 'octetDeltaCount *: *[0-9]*' out | grep -ho '[0-9]*$' >got
    values 1 | cmp - got
}
same_rows() { values 8 12 7 11 2 1 | cmp - out; }
same_vlan() { cmp vlan-7.ipfix wanted.ipfix; }
same_selected() {
    romtyalig show <web.ipfix 2>/dev/null >got && [ "$(wc -l <got)" -eq 1 ] && grep -q ' 8=10.0.0.1 12=10.0.0.2 .* 11=443 .* 2=2 ' got
}
# A capture that is removed piece by piece leaves its streams.
same_large() { cmp flows.ipfix large.ipfix && [ -z "$(find pieces -name '*.pcap*')" ] && rm -r pieces flows.ipfix; }
# The bill is right, and one that isn't would be seen.
right_bill() { [ ! -s out ] && sed -i 's/^octets .*/octets 1/' summary && ! bash -eu <(tail -n 1 commands) >out; }
right_bills() { [ ! -s out ] && sed -i 's/^octets .*/octets 1/' second.summary && ! bash -eu <(tail -n 1 commands) >out; }
# The sums of packets and octets by some fields, by the lines of `show`: sums FIELD..
sums() {
    values "$@" 2 1 | awk -v count=$# '{
        key = $1
        for (i = 2; i <= count; i++) key = key " " $i
        packets[key] += $(count + 1); octets[key] += $(count + 2)
    } END { for (key in packets) print key, packets[key], octets[key] }' | sort
}
same_chosen() {
    [ "$(grep -c ',198.51.100.7,' prefix.csv),$(grep -c 53, port.csv),$(wc -l <prefix.csv),$(wc -l <port.csv),$(wc -l <hour.csv)" = 1,2,2,3,5 ] &&
        sums 8 12 | cmp - <(tail -n +2 pairs | tr -s ' ' | sort) && sums 4 | cmp - <(tail -n +2 protocols | tr -s ' ' | sort) &&
        sums 11 | cmp - <(tail -n +2 ports | tr -s ' ' | sort)
}
same_sent() { sums 8 | awk '{ print $1 "|" $3 }' | sort | cmp - <(sort out); }
same_public() {
    romtyalig show <public.ipfix 2>/dev/null >got &&
        sed -E 's/ (8|12)=([0-9]+\.[0-9]+\.[0-9]+)\.[0-9]+/ \1=\2.0/g' lines | cmp - got && ! cmp -s lines got
}
# The flows of the prefix and port, the sums by pair, and the port with most octets first.
same_queries() {
    tr -s ' ' <out | sed 's/^ //; s/ $//' >got
    [ "$(head -n 2 got | grep -c '^6 .*:80 ')" -eq 2 ] && [ "$(sed -n 3,6p got | sort)" = "$(sums 8 12)" ] &&
        tail -n +7 got | grep -q ' any 80 2(50.0) 7(77.8) 1916(93.4) '
}

# The commands of a capture that Ctrl-C stops, which goes to the whole group: twenty datagrams on the loopback interface.
interrupted() {
    block interrupted | sed 's/-i eth0 -w -/-i lo -w - udp port 47475/' >commands
    set -m
    bash -eu commands >out 2>said &
    local group=$!
    set +m
    for _ in $(seq 100); do
        ! grep -q 'listening on' said || break
        sleep 0.1
    done
    for number in $(seq 20); do echo "$number" >/dev/udp/127.0.0.1/47475; done
    sleep 1
    kill -INT -- "-$group"
    wait "$group" 2>/dev/null
    romtyalig show <flows.ipfix 2>/dev/null | grep -oE ' (11|2)=[0-9]+' | paste -sd '' |
        grep -oE '11=47475 2=[0-9]+' | awk -F= '{ packets += $3 } END { exit packets != 20 }'
}
same_columns() {
    tail -n +2 flows.csv | tr -d '"' | cut -d, -f1-8,11 | tr ',' ' ' >got
    values 8 12 7 11 4 6 2 1 136 | cmp - got
}
same_talkers() {
    tail -n +2 out | tr -s ' ' >got
    values 8 1 | awk '{ sum[$1] += $2 } END { for (a in sum) print a, sum[a] }' | sort -k2,2nr | cmp - got
}
drawn() { grep -q '</svg>' octets.svg; }
# Each record's octets in each of the four forms; checks/named.py compares every field.
same_named() {
    grep -ho ' octetDeltaCount=[0-9]*' flows.txt | cut -d= -f2 >got
    grep -ho '[0-9]* octets* from' out | cut -d ' ' -f 1 >>got
    { values 1; values 1; } | cmp - got || return 1
    python3 -c 'import csv, json, sys
print(*[row["octetDeltaCount"] for row in csv.DictReader(open("named.csv"))], sep="\n")
print(*[json.loads(line)["octetDeltaCount"] for line in open("flows.jsonl")], sep="\n")' >got
    { values 1; values 1; } | cmp - got
}
# checks/report.py compares every figure and number.
reported() { grep -q '</html>' report.html && grep -q "<b id=\"flows\">$(wc -l <lines)<" report.html; }
# checks/compare.py compares streams that differ.
same_by_another() { grep -q '^keys: 4 alike, 0 with other totals, 0 only in the first, 0 only in the second$' out; }
same_rest() { cmp captures/capture.ipfix wanted.ipfix; }
# A line for each of the 1000 asks, and the packets and octets of all records.
same_total() {
    [ "$(wc -l <out)" -eq 1001 ] &&
        [ "$(tail -n 1 out)" = "total $(values 2 1 | awk '{ packets += $1; octets += $2 } END { print packets, octets }')" ]
}
same_collected() {
    awk '{ gsub(/:/, " "); print $1, $2, $3, $4, $5, $6, $7 }' out | sort >got
    values 4 8 7 12 11 2 1 | sort | cmp - got
}

compare progress pv same_stream
compare compressed zcat same_stream
compare pipelined zcat same_stream
# Without this file the two that follow can't run the command as it stood.
rm capture.pcap.gz
compare "xz -dc of compressed" xz named_stream 's/zcat capture.pcap.gz/xz -dc capture.pcap.xz/'
compare "zstd -dc of compressed" zstd named_stream 's/zcat capture.pcap.gz/zstd -dc capture.pcap.zst/'
compare several mergecap same_stream
compare join romtyalig-join same_stream
if [ -e capture.pcapng ]; then
    compare pcapng romtyalig-pcapng same_stream
else
    echo "skipped: pcapng, no editcap"
fi
compare vlan tcpdump same_vlan
compare select tcpdump same_selected
compare endless "tcpdump zcat" same_large
compare "several pieces of endless" "tcpdump zcat" same_large 's/-C 1000/-C 1/'
if ! command -v tcpdump >/dev/null || [ "$(id -u)" -ne 0 ]; then
    echo "skipped: interrupted, no tcpdump or not root"
elif interrupted; then
    echo "same: interrupted"
    same=$((same + 1))
else
    echo "DIFFERS: interrupted"
    head -n 5 said | sed 's/^/    /'
    differ=$((differ + 1))
fi
rm -f flows.ipfix
compare cooked "tcpdump editcap" same_stream
compare loopback "tcpdump editcap" same_stream
compare "link type 108 of loopback" "tcpdump editcap" same_stream 's/loopback.pcap/bsd-loopback.pcap/'
compare pppoe "tcpdump editcap" same_stream
compare "tags of pppoe" "tcpdump editcap" same_stream "s/pppoe.pcap/tagged-pppoe.pcap/; s/'pppoes and .*)'/'$(
    grep -ho 'vlan and pppoes and [^`]*' "$top/docs/OPERATORS.md" "$top/docs/RECIPES.md")'/; s/-C 22/$(grep -ho -e '-C 26' "$top/docs/OPERATORS.md" "$top/docs/RECIPES.md")/"
compare mpls "tcpdump editcap" same_stream
compare bill diff right_bill
compare bills diff right_bills
rm flows.ipfix
compare tags "tshark editcap mergecap" same_stream
# A first run that ends at a file, by the line that the text above the block names, and then all lines with that file.
compare "two of tags" "tshark editcap mergecap" same_stream "H; s/old-tags/two-tags/; \$s/.*/$(
    grep -ho 'mergecap -F pcap -w once.pcap [^`]*' "$top/docs/OPERATORS.md" "$top/docs/RECIPES.md")/; \$!b; p; x; s/^\n//; s/old-tags/once/g"
compare icmp tshark same_types
compare "IPv6 of icmp" tshark same_requests \
    "1d; s/icmp.pcap/icmpv6.pcap/; s/icmp.type == 8/$(grep -ho 'icmpv6.type == [0-9]*' "$top/docs/OPERATORS.md" "$top/docs/RECIPES.md")/"
cp wanted.ipfix flows.ipfix
compare show romtyalig same_lines
compare text ipfixDump same_dump
compare wireshark tshark same_rows
compare csv ipfix2csv same_columns
if [ -e flows.csv ]; then
    compare talkers mlr same_talkers
    compare picture gnuplot drawn
else
    echo "skipped: talkers and picture, no CSV"
fi
compare named python3 same_named
compare chosen mlr same_chosen
compare database sqlite3 same_sent
compare privacy python3 same_public
compare report "gnuplot mlr ipfix2csv" reported
compare compared "softflowd socat" same_by_another
cp capture.pcap captures
compare rest romtyalig same_rest
compare watch romtyalig-watch same_total
compare collector nfcapd same_collected
compare nfdump nfdump same_queries
echo "$same the same, $differ that differ"
[ "$differ" -eq 0 ]
