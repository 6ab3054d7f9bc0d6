#!/bin/bash
# The programs that meter, and the one that joins, in a shell, as an operator meets them: each command's exit status and the lines
# that it leaves on standard error.
#
#     checks/shell.sh
#
# One line for each row of the table at the end. The status is not 0 where any differs. ROMTYALIG, ROMTYALIG_PIPE and
# ROMTYALIG_JOIN are the programs' paths (bin/romtyalig, bin/romtyalig-pipe and bin/romtyalig-join unless set).
set -u

here=$(cd "$(dirname "$0")" && pwd)
top=$(dirname "$here")
program=${ROMTYALIG:-$top/bin/romtyalig}
pipe=${ROMTYALIG_PIPE:-$top/bin/romtyalig-pipe}
join=${ROMTYALIG_JOIN:-$top/bin/romtyalig-join}
export LC_ALL=C

for needed in "$program" "$pipe" "$join"; do
    if [ ! -x "$needed" ]; then
        echo "no program at $needed" >&2
        exit 2
    fi
done
work=$(mktemp -d) || exit 2
trap 'rm -rf "$work"' EXIT
trap 'exit 2' HUP INT TERM
cd "$work" || exit 2
mkdir bin folder
ln -s "$program" bin/romtyalig
ln -s "$pipe" bin/romtyalig-pipe
ln -s "$join" bin/romtyalig-join
PATH="$work/bin:$PATH"
capture=$top/examples/web-exchange.pcap
export capture
romtyalig meter <"$capture" >whole 2>summary
head -c 100 whole >begun
head -c 40 "$capture" | tail -c 16 >rest
cp "$capture" capture.pcap

same=0
differ=0

# A command, its exit status, what standard error has, and what standard output has: row NAME STATUS LINES OUTPUT COMMAND. The
# lines and the output are files. Hints, lines that begin with a program's name and a colon, aren't compared here, but none comes
# before the run's own line, nor where all was done.
row() {
    : >said
    : >output
    bash -c "$5" >output 2>said
    got=$?
    awk -v own="$(wc -l <"$3")" 'NR <= own || !/^romtyalig[-a-z]*: /' said >stderr
    [ "$got" -eq 0 ] && cp said stderr
    if [ "$got" -eq "$2" ] && cmp -s stderr "$3" && cmp -s output "$4"; then
        echo "same: $1"
        same=$((same + 1))
    else
        echo "DIFFERS: $1: status $got, $(head -n 1 stderr)"
        differ=$((differ + 1))
    fi
}

# A file with this line.
line() {
    echo "$1" >"line $1"
    echo "line $1"
}

: >none
usage=$(line "usage: meter, show, make, schedule or selftest")

row "a capture" 0 summary whole 'romtyalig meter <"$capture"'
row "no words" 2 "$usage" none 'romtyalig <"$capture"'
row "a wrong word" 2 "$usage" none 'romtyalig metre <"$capture"'
row "a wrong option" 2 "$usage" none 'romtyalig meter --idel 5 <"$capture"'
row "a word that is not UTF-8" 2 "$usage" none 'romtyalig $'"'"'met\xffer'"'"' <"$capture"'
row "a value that is not UTF-8" 2 "$usage" none 'romtyalig meter --idle $'"'"'\xff'"'"' <"$capture"'
row "a folder as input" 1 "$(line "read fault")" none 'romtyalig meter <folder'
row "a closed input" 1 "$(line "read fault")" none 'romtyalig meter <&-'
row "an empty input" 4 "$(line "not a capture")" none 'romtyalig meter </dev/null'
row "a text as capture" 4 "$(line "not a capture")" none 'echo text that is no capture at all | romtyalig meter'
row "a stream as capture" 4 "$(line "not a capture")" none 'romtyalig meter <whole'
row "a capture as stream" 9 "$(line "not a stream: version at 0")" none 'romtyalig show <"$capture"'
row "a stream cut off" 9 "$(line "not a stream: cut at 0")" none 'romtyalig show <begun'
row "a full device" 3 none none 'romtyalig meter <"$capture" >/dev/full'
row "a full device of show" 3 none none 'romtyalig show <whole >/dev/full'
row "a closed pipe" 3 none none '{ sleep 1; romtyalig meter <"$capture"; echo $? >status; } | :; exit "$(cat status)"'
row "the summary to a full device" 3 none whole 'romtyalig meter <"$capture" 2>/dev/full'
row "the line of a refusal to a full device" 4 none none 'romtyalig meter </dev/null 2>/dev/full'
row "the line of a wrong word to a closed standard error" 2 none none 'romtyalig metre 2>&-'

piped=$(line "usage: pipe")
row "a capture by the pipeline" 0 summary whole 'romtyalig-pipe pipe --workers 2 --queue=1 <"$capture"'
row "no word of the pipeline" 0 summary whole 'romtyalig-pipe <"$capture"'
row "a wrong word of the pipeline" 2 "$piped" none 'romtyalig-pipe meter <"$capture"'
row "a word of the pipeline that is not UTF-8" 2 "$piped" none 'romtyalig-pipe $'"'"'pipe\xff'"'"' <"$capture"'
row "a folder as input of the pipeline" 1 "$(line "read fault")" none 'romtyalig-pipe pipe <folder'
row "an empty input of the pipeline" 4 "$(line "not a capture")" none 'romtyalig-pipe pipe </dev/null'
row "a slow input of the pipeline" 0 summary whole '{ head -c 300 "$capture"; sleep 1; tail -c +301 "$capture"; } | romtyalig-pipe pipe'
row "a full device of the pipeline" 3 none none 'romtyalig-pipe pipe <"$capture" >/dev/full'
row "the summary of the pipeline to a full device" 3 none whole 'romtyalig-pipe pipe <"$capture" 2>/dev/full'

row "a stream to join" 0 none whole 'romtyalig-join join whole'
row "a stream from standard input to join" 0 none whole 'romtyalig-join join - <whole'
row "no words of the joiner" 2 none none 'romtyalig-join <whole'
row "a word of the joiner that is no file" 1 "$(line "meter: read fault")" none 'romtyalig-join meter whole'
row "no file to join" 2 none none 'romtyalig-join join <whole'
row "a folder to join" 1 "$(line "folder: read fault")" none 'romtyalig-join join folder'
row "a missing file to join" 1 "$(line "missing: read fault")" none 'romtyalig-join join missing'
row "a missing file behind a stream to join" 1 "$(line "missing: read fault")" none 'romtyalig-join join whole missing'
row "a capture to join" 9 "$(line "capture.pcap: not a stream: version at 0")" none 'romtyalig-join join capture.pcap'
row "a stream cut off to join" 9 "$(line "begun: not a stream: cut at 0")" none 'romtyalig-join join whole begun'
row "a full device of the joiner" 3 none none 'romtyalig-join join whole >/dev/full'
row "the line of the joiner to a full device" 1 none none 'romtyalig-join join missing 2>/dev/full'
echo "$same the same, $differ that differ"
[ "$differ" -eq 0 ]
