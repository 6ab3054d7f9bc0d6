#!/bin/bash
# Each script of examples/ tells what it does by --help, and has one line for words that it doesn't know and for what isn't there.
#
#     checks/scripts.sh
#
# One line for each script; the status is not 0 where any differs. That of report.sh is looked at where the programs that it needs
# are installed.
# shellcheck disable=SC2317 # rows call functions by their names
set -u

top=$(dirname "$(cd "$(dirname "$0")" && pwd)")
export LC_ALL=C
work=$(mktemp -d) || exit 2
trap 'rm -rf "$work"' EXIT
trap 'exit 2' HUP INT TERM
mkdir "$work/empty" "$work/full"
cd "$work" || exit 2
echo "no capture and no stream" >text
cp "$top/examples/web-exchange.pcap" full
cp "$top/examples/web-exchange.ipfix" stream
differ=0

# Says what is wrong with the script of this row.
differs() {
    echo "DIFFERS: $script: $1"
    head -n 5 err | sed 's/^/    /'
    wrong=1
}

# Runs the script on a text: run WORD..
run() {
    case $script in
    *.py) timeout 60 python3 "$top/examples/$script" "$@" ;;
    *) timeout 60 "$top/examples/$script" "$@" ;;
    esac <text >out 2>err
}

# Runs it, and wants a status and, last on standard error, one line that begins with the script's name: told STATUS WORD..
told() {
    local status=$1 got name line
    shift
    run "$@"
    got=$?
    name=$(basename "$script")
    line="^(usage: )?${name%.*}(\.[a-z]*)?[: ] *."
    if [ "$got" -ne "$status" ] || [ -s out ] || [ "$(grep -cE "$line" err)" -ne 1 ] || ! tail -n 1 err | grep -qE "$line"; then
        differs "'$*': status $got"
    fi
}

# A script of this folder: --help, and then the rows of its function, which are wrong words and what isn't there: row SCRIPT FUNCTION
row() {
    script=$1 wrong=0
    for word in --help -h; do
        run "$word" || differs "$word: status $?"
        if [ -s err ] || [ "$(wc -l <out)" -le 5 ] || ! grep -qF "$(basename "$script")" out; then differs "$word"; fi
    done
    "$2"
    [ "$wrong" -eq 0 ] && echo "same: $script"
    differ=$((differ + wrong))
}

many() {
    told 2
    told 2 full
    told 2 --keep-goin full streams
    told 2 --meter streams
    told 1 missing streams
    told 1 empty streams
    told 1 --meter streams missing.pcap
    PARTS=x told 2 full streams whole.ipfix
    JOBS=0 told 2 full streams
}
rotate() {
    told 2
    told 2 --rest
    told 2 --rests full
    told 1 --rest missing
    told 1 full/missing.pcap
    told 1 missing/missing.pcap
    KEEP_STREAMS=5G told 2 full/web-exchange.pcap
}
submit() {
    told 2
    told 2 full
    told 2 --array full streams
    told 1 missing streams
    told 1 empty streams
    PARTS=0 told 2 full streams whole.ipfix
}
task() {
    told 2
    told 2 many.sh meter
}
named() {
    told 2 --cvs
    told 2 --csv --json
    told 1
}
report() {
    told 2
    told 2 stream stream stream stream stream stream
    told 1 missing
    told 1 text
}
to_collector() {
    told 2
    told 2 127.0.0.1
    told 2 127.0.0.1 65536
    told 2 --rate 0 127.0.0.1 4739
    told 1 127.0.0.1 4739
    told 1 127.0.0.1 4739 missing
}
compare() {
    told 2
    told 2 stream
    told 2 --line 5 stream stream
    told 2 stream missing
    told 2 stream text
}
cut_addresses() {
    told 2 --ipv5 24
    told 2 --ipv4 33
    told 2 stream
    told 1
}
make_captures() {
    told 2 empty full
    told 1 missing
}

row many.sh many
row rotate.sh rotate
row slurm/submit.sh submit
row slurm/task.sh task
row named.py named
row to_collector.py to_collector
row compare.py compare
row cut_addresses.py cut_addresses
row make_captures.py make_captures
if command -v ipfix2csv >/dev/null && command -v mlr >/dev/null && command -v gnuplot >/dev/null; then
    row report.sh report
else
    echo "skipped: report.sh, no ipfix2csv, mlr or gnuplot"
fi
# None is forgotten.
for script in "$top"/examples/*.sh "$top"/examples/*.py "$top"/examples/slurm/*.sh; do
    grep -q "row ${script#"$top"/examples/} " "$top/checks/scripts.sh" || { echo "DIFFERS: no row for $script"; differ=$((differ + 1)); }
done
exit $((differ > 0))
