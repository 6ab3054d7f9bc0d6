#!/bin/bash
# Help, version, hints and terminals of the six programs.
#
#     checks/help.sh
#
# A row of the table: exit status, what a line of standard output has, what a line of standard error has, and a command in a shell.
# `-` says that the stream has nothing. Behind the run's own line, which is the first, each line of standard error begins with the
# program's name and a colon. With a terminal the commands run in `script` (Debian package bsdutils); where it is missing that is
# skipped with one line. Then the options, with range and default, are compared between help and manual pages, and the version
# with packaging/control. The status is not 0 where anything differs. ROMTYALIG, ROMTYALIG_PIPE and so on are the programs' paths
# (bin/romtyalig, bin/romtyalig-pipe and so on unless set).
set -u

top=$(dirname "$(cd "$(dirname "$0")" && pwd)")
export LC_ALL=C
work=$(mktemp -d) || exit 2
trap 'rm -rf "$work"' EXIT
trap 'exit 2' HUP INT TERM
mkdir "$work/bin" "$work/folder"
for name in romtyalig romtyalig-pipe romtyalig-pcapng romtyalig-pair romtyalig-join romtyalig-watch; do
    variable=$(echo "$name" | tr 'a-z-' 'A-Z_')
    path=${!variable:-$top/bin/$name}
    if [ ! -x "$path" ]; then
        echo "no program at $path" >&2
        exit 2
    fi
    ln -s "$(realpath "$path")" "$work/bin/$name"
done
PATH="$work/bin:$PATH"
cd "$work" || exit 2
cp "$top/examples/web-exchange.pcap" c.pcap
romtyalig meter <c.pcap >flows.ipfix 2>summary
printf '\x0a\x0d\x0d\x0a\x1c\0\0\0\x4d\x3c\x2b\x1a\x01\0\0\0\xff\xff\xff\xff\xff\xff\xff\xff\x1c\0\0\0' >file.pcapng
gzip -k c.pcap
printf '\x28\xb5\x2f\xfd\x04' >c.pcap.zst
printf '\xfd7zXZ\0' >c.pcap.xz
printf 'BZh9' >c.pcap.bz2
printf '\xd4\xc3\xb2\xa1' >begun.pcap
{ head -c 20 c.pcap && printf '\x14\x01\0\0'; } >cooked2.pcap
{ head -c 20 c.pcap && printf '\0\0\0\0'; } >loopback.pcap
printf '\0\x0a\0' >cut.ipfix

rows=0
differ=0

differs() {
    echo "DIFFERS: $1"
    differ=$((differ + 1))
}

# Whether a file has such a line; `-`: whether it is empty.
has() {
    if [ "$2" = - ]; then
        [ ! -s "$1" ]
    else
        grep -qF -- "$2" "$1"
    fi
}

row() {
    rows=$((rows + 1))
    bash -c "$4" >output 2>said </dev/null
    got=$?
    others=$(sed 1d said | grep -vcE '^romtyalig[-a-z]*: ')
    if [ "$got" -ne "$1" ] || ! has output "$2" || ! has said "$3" || { [ "$1" -ne 0 ] && [ "$others" -ne 0 ]; }; then
        differs "$4: status $got, $(head -n 3 said output)"
    fi
}

# Help and version, asked for in each way.
for name in romtyalig romtyalig-pipe romtyalig-pcapng romtyalig-pair romtyalig-join romtyalig-watch; do
    for word in --help -h help; do
        row 0 "Usage: $name" - "$name $word"
    done
    version=$(sed -n 's/^Version: //p' "$top/packaging/control")
    row 0 "$name $version" - "$name --version"
    row 0 "$name $version" - "$name -V"
    row 0 "man $name" - "$name --help"
done
for command in meter show make schedule selftest; do
    row 0 "Usage: romtyalig $command" - "romtyalig $command --help"
    row 0 "Usage: romtyalig $command" - "romtyalig help $command"
done
row 0 "(for developers)" - "romtyalig --help"
row 3 - "romtyalig: can't write the output: No space left on device" "romtyalig --help >/dev/full"

# Words that are wrong.
row 2 - "romtyalig: try 'romtyalig --help'" "romtyalig"
row 2 - "romtyalig: try 'romtyalig meter --help'" "romtyalig meter --idle 0 <c.pcap"
row 2 - "romtyalig: invalid value '0' for '--idle <SECONDS>': 0 is not in 1..=86400" "romtyalig meter --idle 0 <c.pcap"
row 2 - "--idle" "romtyalig meter --idel 5 <c.pcap"
row 2 - "romtyalig: 'c.pcap' is not expected" "romtyalig meter c.pcap"
row 2 - "as in romtyalig meter < c.pcap" "romtyalig c.pcap"
row 2 - "usage: meter, show, make, schedule or selftest" "romtyalig metre"
row 2 - "romtyalig: a word of the command line is not UTF-8" 'romtyalig $'"'"'met\xffer'"'"
row 2 - "romtyalig-pair: try 'romtyalig-pair --help'" "romtyalig-pair --size 1 <flows.ipfix"
row 2 - "romtyalig-pipe: invalid value '63' for '--workers <COUNT>'" "romtyalig-pipe --workers 63 <c.pcap"
row 2 - "romtyalig-join: try 'romtyalig-join --help'" "romtyalig-join"
row 2 - "romtyalig-pcapng: 'file.pcapng' is not expected" "romtyalig-pcapng file.pcapng"
row 2 - "romtyalig-watch: try 'romtyalig-watch --help'" "romtyalig-watch --asks 0 <c.pcap"

# Inputs that are something else.
row 4 - "romtyalig: the input is pcapng" "romtyalig meter <file.pcapng"
row 4 - "zcat" "romtyalig meter <c.pcap.gz"
row 4 - "zstdcat" "romtyalig meter <c.pcap.zst"
row 4 - "xzcat" "romtyalig meter <c.pcap.xz"
row 4 - "bzcat" "romtyalig meter <c.pcap.bz2"
row 4 - "romtyalig show" "romtyalig meter <flows.ipfix"
row 4 - "no octets at all" "romtyalig meter"
row 4 - "cut off or damaged" "romtyalig meter <begun.pcap"
row 4 - "begins as none" "echo text of more than twenty-four octets | romtyalig-pipe"
row 9 - "romtyalig meter <" "romtyalig show <c.pcap"
row 9 - "cut off or damaged" "romtyalig show <cut.ipfix"
row 9 - "romtyalig-pair: not a stream" "romtyalig-pair <c.pcap"
row 4 - "romtyalig-pcapng: not a pcapng file" "romtyalig-pcapng <c.pcap"
row 4 - "romtyalig-watch: not a capture" "romtyalig-watch <flows.ipfix"
row 5 - "Linux cooked, version 2" "romtyalig meter <cooked2.pcap"
row 5 - "BSD loopback" "romtyalig-pipe <loopback.pcap"
row 9 - "romtyalig-join: that file is no IPFIX stream" "romtyalig-join c.pcap"
row 1 - "romtyalig-join: can't read that file: No such file or directory" "romtyalig-join missing"
row 1 - "romtyalig-join: --idle stands behind a file" "romtyalig-join flows.ipfix --idle 5"
row 0 - "romtyalig-join: warning: flows.ipfix is named twice" "romtyalig-join flows.ipfix flows.ipfix >/dev/null"

# Reads and writes that fail, and a closed pipe.
row 1 - "romtyalig: can't read the input: Is a directory" "romtyalig meter <folder"
row 3 - "romtyalig: can't write the output: No space left on device" "romtyalig meter <c.pcap >/dev/full"
row 3 - "romtyalig-pipe: can't write the output: No space left on device" "romtyalig-pipe <c.pcap >/dev/full"
row 3 - "romtyalig-pair: can't write the output: No space left on device" "romtyalig-pair <flows.ipfix >/dev/full"
row 3 - "romtyalig-join: can't write the output: No space left on device" "romtyalig-join flows.ipfix >/dev/full"
row 3 - "romtyalig-watch: can't write the output: No space left on device" "romtyalig-watch <c.pcap >/dev/full"
row 3 - - '{ sleep 1; romtyalig meter <c.pcap; echo $? >status; } | :; exit "$(cat status)"'

# The command's word may be left out.
for line in "pair <flows.ipfix" "join flows.ipfix" "pipe <c.pcap"; do
    command=${line%% *}
    bash -c "romtyalig-$command ${line#* }" >short 2>/dev/null
    bash -c "romtyalig-$command $line" >long 2>/dev/null
    cmp -s short long && [ -s short ] || differs "romtyalig-$line"
done

# In a terminal. `script` gives its own standard output to the command as a terminal, and standard input likewise.
if command -v script >/dev/null; then
    for line in "romtyalig meter" romtyalig-pipe romtyalig-pair romtyalig-pcapng "romtyalig make --seed 1 --packets 1" \
        "romtyalig-join flows.ipfix"; do
        rows=$((rows + 1))
        timeout 20 script -qec "$line" /dev/null >output </dev/null
        got=$?
        { [ "$got" -eq 2 ] && grep -q "${line%% *}: standard output is a terminal" output; } || differs "$line in a terminal: $got"
    done
    timeout 20 script -qec "romtyalig meter --help" /dev/null >output </dev/null || differs "help in a terminal"
    timeout 20 script -qec "romtyalig meter >written" /dev/null >output </dev/null
    grep -q "romtyalig: waiting for a capture" output || differs "a terminal as input"
else
    echo "skipped: terminals, no script"
fi

# Options with ranges and defaults: those of the help stand in the manual page too.
for name in romtyalig romtyalig-pipe romtyalig-pair romtyalig-join romtyalig-watch; do
    commands=${name#romtyalig-}
    [ "$name" = romtyalig ] && commands="meter make selftest"
    for command in $commands; do
        if [ "$name" = romtyalig ]; then "$name" "$command" --help >output; else "$name" --help >output; fi
        page=$(sed 's/,\([0-9]\)/\1/g; s/Fl -\([a-z]*\)/--\1/g' "$top/man/$name.1" | tr '\n' ' ')
        grep -oE -e '--[a-z]+ <' output | tr -d ' <' | grep -vx -e --help | sort -u >options
        while read -r option; do
            grep -qF -e "$option" <<<"$page" || differs "$name $command: $option is not in its page"
        done <options
        grep -oE 'by default [0-9]+' output | while read -r _ _ value; do
            grep -qE "by default $value|default $value" <<<"$page" || echo "$value"
        done >missing
        [ -s missing ] && differs "$name $command: defaults $(tr '\n' ' ' <missing)not in its page"
    done
done
[ "$differ" -eq 0 ] && echo "as wanted: $rows rows of help, hints and terminals"
[ "$differ" -eq 0 ]
