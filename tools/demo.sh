#!/bin/sh
# Meters a sample capture, and shows the summary and the records.
#
#     tools/demo.sh
#
# The capture is examples/web-exchange.pcap. What `meter` writes of it must be examples/web-exchange.ipfix, and what
# `show` writes of that are the records. Where bin/romtyalig is there, which is proved, that runs. Else the program is
# built once, without proving it, which takes a minute or two, and runs twice; nothing is left of that build.
set -u

top=$(dirname "$(cd "$(dirname "$0")" && pwd)")
cd "$top" || exit 2
capture=examples/web-exchange.pcap
stream=examples/web-exchange.ipfix
work=$(mktemp -d) || exit 2
trap 'rm -rf "$work"' EXIT
trap 'exit 2' HUP INT TERM

# Leaves the summary and the records in two files, by the program that is proved.
run_proved() {
    bin/romtyalig meter <"$capture" >"$work/stream" 2>"$work/summary" && cmp "$work/stream" "$stream" &&
        bin/romtyalig show <"$stream" >"$work/records" 2>"$work/count" && cat "$work/count" >>"$work/records"
}

# The same by one that isn't: `rt try` runs it on each file of a folder, and puts a line with the file's name before what it writes,
# and a line of its own, which begins with case=, behind what it reports.
run_unproved() {
    mkdir "$work/cases"
    cp "$capture" "$work/cases/meter"
    cp "$stream" "$work/cases/show"
    echo meter >"$work/cases/meter.args"
    echo show >"$work/cases/show.args"
    if ! (cd crates/romtyalig && rt try --cases "$work/cases") >"$work/output" 2>"$work/stderr"; then
        cat "$work/stderr" >&2
        return 1
    fi
    { echo "== meter" && cat "$stream"; } >"$work/begins"
    size=$(wc -c <"$work/begins")
    head -c "$size" "$work/output" | cmp - "$work/begins" || return
    sed '/^case=meter /,$d' "$work/stderr" >"$work/summary"
    tail -c "+$((size + 1))" "$work/output" | awk 'shown { print } /^== show$/ { shown = 1 }' >"$work/records"
    awk '/^case=/ { done++ } done == 1 && !/^case=/' "$work/stderr" >>"$work/records"
}

if [ -x bin/romtyalig ]; then
    run_proved || exit
else
    echo "No program is built yet, so one is built as it is, unproved, in a minute or two; \`make build\` proves and builds all."
    run_unproved || exit
fi
echo "The summary of $capture, an ARP request, a DNS query and its reply, and a TCP exchange:"
cat "$work/summary"
echo "Its records, each a line: the template's number and then ELEMENT=VALUE, by the numbers of the IANA IPFIX registry:"
cat "$work/records"
