#!/bin/bash
# Makes a page of a stream of flow records: one HTML file that needs nothing else.
#
#     report.sh [OPTION VALUE].. FLOWS [BIFLOWS [SUMMARY]] > report.html
#
# FLOWS is the stream of `romtyalig meter`. BIFLOWS is what `romtyalig-pair` makes of it, or `-` for none. SUMMARY is what
# `meter` wrote to standard error: then the page also says which packets were left out, and why. The page has the traffic over
# time and by protocol, the ten addresses, conversations and ports with most octets, why flows ended and how long they lasted;
# with BIFLOWS also which were answered, and how soon. Times are UTC. Nothing is written if an input can't be read.
#
#     --title TEXT        the head of the page ("Flow report" unless given)
#     --idle SECONDS      the idle time-out that `meter` had, which the page names (a stream doesn't have it)
#     --active SECONDS    the active time-out that `meter` had
#
# The status is 0 if the page was written, 1 if an input can't be read or isn't what it should be, and 2 if the command line is
# wrong or a program is missing. Debian packages: python3-ipfix, miller, gnuplot-nox.
set -euo pipefail
export LC_ALL=C TZ=UTC

refuse() {
    echo "report.sh: $2" >&2
    exit "$1"
}

title="Flow report" idle='' active=''
while [[ ${1:-} == -?* ]]; do
    case $1 in
        -h | --help)
            sed -n '2,/^set/{/^set/d;s/^# \{0,1\}//;p}' "$0"
            exit 0
            ;;
        --title | --idle | --active) [ $# -ge 2 ] || refuse 2 "$1 has no value" ;;
        *) refuse 2 "no option $1; try report.sh --help" ;;
    esac
    if [ "$1" != --title ] && ! [[ $2 =~ ^[1-9][0-9]{0,4}$ && $2 -le 86400 ]]; then
        refuse 2 "$1 is 1 to 86400 seconds, not '$2'"
    fi
    case $1 in
        --title) title=$2 ;;
        --idle) idle=$2 ;;
        --active) active=$2 ;;
    esac
    shift 2
done
if [ $# -lt 1 ] || [ $# -gt 3 ]; then
    refuse 2 "usage: report.sh [OPTION VALUE].. FLOWS [BIFLOWS [SUMMARY]] > report.html; try report.sh --help"
fi
flows_file=$1 biflows_file=${2:-} summary_file=${3:-}
[ "$biflows_file" != - ] || biflows_file=
for needed in ipfix2csv mlr gnuplot; do
    if ! command -v "$needed" >/dev/null; then
        refuse 2 "no $needed (packages python3-ipfix, miller, gnuplot-nox)"
    fi
done
for input in "$flows_file" ${biflows_file:+"$biflows_file"} ${summary_file:+"$summary_file"}; do
    [ -f "$input" ] && [ -r "$input" ] || refuse 1 "no file $input that can be read"
done
work=$(mktemp -d)
trap 'rm -rf "$work"' EXIT

common=(tcpControlBits sourceTransportPort destinationTransportPort protocolIdentifier packetDeltaCount octetDeltaCount
    flowStartMilliseconds flowEndMilliseconds flowEndReason)
reverse=(reversePacketDeltaCount reverseOctetDeltaCount reverseFlowStartMilliseconds)
colours="#3b82c4 #e0873a #3fa56b #b36bc4 #8a8f98"

# ---- the records

# The records of a stream that have these fields, over both IP versions, with short names and times in milliseconds since
# 1970: table STREAM FIELD..
table() {
    local stream=$1 version
    shift
    for version in 4 6; do
        if ! ipfix2csv "sourceIPv${version}Address" "destinationIPv${version}Address" "$@" <"$stream" >"$work/v$version" \
            2>"$work/said"; then
            refuse 1 "$stream is no IPFIX stream: $(tail -n 1 "$work/said")"
        fi
    done
    mlr --icsv --ocsv rename -r '^(source|destination)IPv[46]Address$,\1' then \
        rename sourceTransportPort,source_port,destinationTransportPort,destination_port then \
        rename tcpControlBits,flags,protocolIdentifier,protocol,packetDeltaCount,packets,octetDeltaCount,octets,flowEndReason,reason then \
        rename flowStartMilliseconds,first,flowEndMilliseconds,last then \
        rename reversePacketDeltaCount,back_packets,reverseOctetDeltaCount,back_octets then \
        rename reverseFlowStartMilliseconds,back_first then put '
            func milliseconds(str time): int {
                parts = splitax(time, ".");
                seconds = int(strptime(parts[1], "%Y-%m-%d %H:%M:%S"));
                return seconds * 1000 + int(sub(parts[2], "^0+([0-9])", "\1"));
            }
            for (name in ["first", "last", "back_first"]) {
                if (is_present($[name])) { $[name] = milliseconds($[name]) }
            }
            $name = {"1": "ICMP", "6": "TCP", "17": "UDP", "47": "GRE", "50": "ESP", "58": "ICMPv6"}[string($protocol)]
                ?? "protocol ".$protocol;
        ' "$work/v4" "$work/v6"
}

# Whether the templates at the beginning of a stream have fields of the way back, whose enterprise number is 29305 (RFC 5103).
has_reverse() {
    local set
    set=$(od -An -v -tu1 -j16 -N4 "$1" | awk '$1 * 256 + $2 == 2 { print $3 * 256 + $4 - 4 }')
    [ "${set:-0}" -gt 0 ] && od -An -v -tx1 -j20 -N"$set" "$1" | tr -d ' \n' | grep -q 00007279
}

# The number of a line of the summary: summary_value NAME
summary_value() { awk -v name="$1" 'NF == 2 && $1 == name && $2 ~ /^[0-9]+$/ { print $2; exit }' "$summary_file"; }

# The summary must be of these records, by the packets and octets of all: check_summary PACKETS OCTETS
check_summary() {
    local name
    for name in captured accepted not-ip short bad-header short-transport bad-time octets tail; do
        [ -n "$(summary_value "$name")" ] || refuse 1 "$summary_file has no line '$name', so it is no summary of \`romtyalig meter\`"
    done
    if [ "$(summary_value accepted) $(summary_value octets)" != "$1 $2" ]; then
        refuse 1 "$summary_file isn't of $flows_file, whose records have $1 packets and $2 octets"
    fi
}

# The value of a field of the one record of a CSV file: value FIELD FILE
value() { mlr --icsv --onidx put -q "print \$$1" "$2"; }

# The sums of octets and packets by label, the ten with most octets: top EXPRESSION, which gives the label
top() {
    mlr --icsv --ocsv --headerless-csv-output put "\$label = $1" then filter 'is_not_empty($label)' then \
        stats1 -a sum -f octets,packets -g label then sort -nr octets_sum -f label then head -n 10 "$work/flows.csv"
}

# How many records have a time in each range, and their octets: lengths EXPRESSION FILE. The expression gives milliseconds.
lengths() {
    mlr --icsv --ocsv --headerless-csv-output put -q '
        begin {
            @name = ["0 ms", "under 10 ms", "under 100 ms", "under 1 s", "under 10 s", "under 1 min", "under 5 min",
                "under 30 min", "30 min or more"];
            @end = [1, 10, 100, 1000, 10000, 60000, 300000, 1800000];
            for (k = 1; k <= 9; k += 1) { @count[k] = 0; @octets[k] = 0 }
        }
        time = '"$1"';
        place = 1;
        while (place <= 8 && time >= @end[place]) { place += 1 }
        @count[place] += 1;
        @octets[place] += $octets + ($back_octets ?? 0);
        end {
            for (k = 1; k <= 9; k += 1) { emit1 {"label": @name[k], "count": @count[k], "octets": @octets[k]} }
        }
    ' "$2"
}

# ---- time

# The time in milliseconds as date and time.
clock() { date -u -d "@$(($1 / 1000))" "+%Y-%m-%d %H:%M:%S.$(printf '%03d' $(($1 % 1000)))"; }

# The shortest of these steps, in milliseconds, by which a time has no more than so many: step_for MOST TIME
step_for() {
    local step
    for step in 1 2 5 10 20 50 100 200 500 1000 2000 5000 10000 15000 30000 60000 120000 300000 600000 900000 1800000 \
        3600000 7200000 10800000 21600000 43200000 86400000 172800000 604800000 2592000000 31536000000 315360000000; do
        [ $(($2 / step)) -ge "$1" ] || break
    done
    echo "$step"
}

# Octets and packets of each step of time, by protocol. The octets of a record are spread evenly from its first to its last
# packet. Lines: the time of the step in seconds, then for each protocol octets and packets.
steps() {
    mlr --icsv --ocsv --headerless-csv-output cut -o -f first,last,name,octets,packets "$work/flows.csv" |
        awk -F, -v step="$step" -v start="$start" -v names="$names" '
            function add(at, kind, octets, packets) {
                sum[at, kind, 1] += octets; sum[at, kind, 2] += packets
                if (at > end) end = at
            }
            function change(at, kind, octets, packets) { rate[at, kind, 1] += octets; rate[at, kind, 2] += packets }
            BEGIN { count = split(names, listed, ","); for (k = 1; k <= count; k++) place[listed[k]] = k }
            {
                kind = $3 in place ? place[$3] : count
                from = int(($1 - start) / step); to = int(($2 - start) / step); span = $2 - $1
                if (from == to) { add(from, kind, $4, $5); next }
                part = (start + (from + 1) * step - $1) / span; add(from, kind, part * $4, part * $5)
                rest = ($2 - start - to * step) / span; add(to, kind, rest * $4, rest * $5)
                whole = step / span; change(from + 1, kind, whole * $4, whole * $5)
                change(to, kind, -whole * $4, -whole * $5)
            }
            END {
                for (at = 0; at <= end; at++) {
                    printf "%.3f", (start + at * step) / 1000
                    for (kind = 1; kind <= count; kind++) for (what = 1; what <= 2; what++) {
                        level[kind, what] += rate[at, kind, what]
                        here = sum[at, kind, what] + level[kind, what]
                        parts = here < 10 ? 10000 : 100
                        here = int(parts * here + 0.5) / parts
                        printf here == int(here) ? " %.0f" : here < 10 ? " %.4f" : " %.2f", here
                    }
                    print ""
                }
            }' >"$work/steps"
}

# Marks of an axis from 0 to the greatest sum of a step, for gnuplot: marks COLUMN
marks() {
    awk -v column="$1" '
        { total = 0; for (k = column; k <= NF; k += 2) total += $k; if (total > most) most = total }
        END {
            for (wide = 1; most / wide > 5; wide *= (++turn % 3 == 2 ? 2.5 : 2)) ;
            for (unit = 1; unit * 1000 <= most && letters < 5; unit *= 1000) letters++
            letter = letters ? " " substr("kMGTP", letters, 1) : ""
            for (at = 0; at < most + wide; at += wide)
                printf "%s\"%g%s\" %.0f", at ? ", " : "", at / unit, at ? letter : "", at
        }' "$work/steps"
}

# A figure of the steps as SVG, its text in the colour of the page: figure NAME COLUMN, where octets stand from column 2 on
# and packets from column 3
figure() {
    local count format
    count=$(tr ',' '\n' <<<"$names" | wc -l)
    format=%H:%M:%S
    [ "$mark" -ge 1000 ] || format=%M:%.3S
    [ "$mark" -lt 60000 ] || format=%H:%M
    [ $((rows * step)) -lt 86400000 ] || format='%d %b'
    gnuplot >"$work/svg" <<GNUPLOT
set terminal svg size 560,270 dynamic font "sans-serif,15" name "$1"
set format x "$format" timedate
set xtics $mark / 1000.0 nomirror out
unset mxtics
set key off
set border 3
set ytics ($(marks "$2")) nomirror out
set yrange [0:$(marks "$2" | awk '{ print $NF }')]
set grid ytics lc rgb "#808080" lw 0.5
set style fill solid 1 noborder
width = $step / 1000.0
set boxwidth 0.86 * width
set xrange [$start / 1000.0 - 0.3 * width : $start / 1000.0 + $rows * width]
height(k) = sum [n=1:k] column($2 + 2 * (n - 1))
plot for [k=$count:1:-1] "$work/steps" using (\$1 + 0.5 * width):(height(k)) with boxes lc rgb word("$colours", k) \
    title word("$(sed "s/[^,]*/'&'/g; s/,/ /g" <<<"$names")", k)
GNUPLOT
    sed -e '/<?xml/d' -e '/<defs>/,/<\/defs>/d' -e '/<desc>/d' -e "s/id=\"gnuplot_/id=\"$1_/" -e 's/ color="[a-z]*"//' \
        -e "s/\(fill\|stroke\)=[\"']black[\"']/\1=\"currentColor\"/g" "$work/svg" | grep -v '^$'
}

# ---- parts of the page

# A number with its digits in groups of three.
grouped() {
    awk -v n="$1" 'BEGIN {
        for (; length(n) > 3; n = substr(n, 1, length(n) - 3)) out = "," substr(n, length(n) - 2) out
        print n out
    }'
}

# A number and its noun: counted ID NUMBER NOUN
counted() {
    local ending=s
    [ "$2" != 1 ] || ending=
    echo "<li><b id=\"$1\">$(grouped "$2")</b> $3$ending</li>"
}

# A rate in bits a second, with three digits and the unit that suits: rate OCTETS MILLISECONDS
rate() {
    awk -v octets="$1" -v time="$2" 'BEGIN {
        rate = octets * 8000 / time
        for (at = 0; rate >= 999.5 && at < 4; at++) rate /= 1000
        printf rate < 9.995 ? "%.2f %s" : rate < 99.95 ? "%.1f %s" : "%.0f %s", rate, substr(" kMGT", at + 1, 1) "bit/s"
    }' | sed 's/  */ /'
}

# Text of standard input as HTML.
escaped() { sed 's/&/\&amp;/g; s/</\&lt;/g; s/>/\&gt;/g; s/"/\&quot;/g'; }

# A table with bars: a label, and numbers, of which one is the bar's. The input is such CSV without a header.
# bars ID BAR HEAD HEAD.., in which BAR is the column of the bar's number, 2 being the first
bars() {
    local id=$1 bar=$2 head
    echo "<table class=\"bars\" id=\"$id\"><thead><tr><th>$3</th>"
    for head in "${@:4}"; do echo "<th class=\"number\">$head</th>"; done
    echo "</tr></thead><tbody>"
    awk -F, -v bar="$bar" '
        function grouped(n,   out) {
            if (n !~ /^[0-9]+$/) return n
            for (out = ""; length(n) > 3; n = substr(n, 1, length(n) - 3)) out = "," substr(n, length(n) - 2) out
            return n out
        }
        { line[NR] = $0; number[NR] = $bar + 0; if (number[NR] > most) most = number[NR] }
        END {
            for (row = 1; row <= NR; row++) {
                count = split(line[row], cell, ",")
                printf "<tr><td><i style=\"width:%.2f%%\"></i><span>%s</span></td>", (most > 0 ? 100 * number[row] / most : 0), cell[1]
                for (k = 2; k <= count; k++) printf "<td class=\"number\">%s</td>", grouped(cell[k])
                print "</tr>"
            }
        }'
    echo "</tbody></table>"
}

# A section of the page from standard input: section TITLE NOTE
section() {
    echo "<section><h2>$1</h2>"
    cat
    [ -z "$2" ] || echo "<p class=\"note\">$2</p>"
    echo "</section>"
}

# The steps as a table, behind a word to click on.
numbers() {
    echo "<details><summary>The numbers</summary><div class=\"wide\"><table id=\"steps\"><thead><tr><th>from (UTC)</th>"
    tr ',' '\n' <<<"$names" | while read -r name; do echo "<th>$name octets</th><th>$name packets</th>"; done
    echo "</tr></thead><tbody>"
    while read -r time rest; do
        echo "<tr><td>$(clock "${time/./}")</td><td>${rest// /</td><td>}</td></tr>"
    done <"$work/steps"
    echo "</tbody></table></div></details>"
}

legend() {
    echo "<p class=\"legend\">"
    paste -d '|' <(tr ',' '\n' <<<"$names") <(tr ' ' '\n' <<<"$colours") | while IFS='|' read -r name colour; do
        [ -z "$name" ] || echo "<span><b style=\"background:$colour\"></b>$name</span>"
    done
    echo "</p>"
}

length_of_step() {
    awk -v step="$step" 'BEGIN {
        if (step < 1000) print step " ms"
        else if (step < 60000) print step / 1000 " s"
        else print step < 3600000 ? step / 60000 " min" : step / 3600000 " h"
    }'
}

over_time() {
    local each marks=
    [ "$mark" -ge 1000 ] || marks=" The axis shows minutes and seconds."
    each=$(length_of_step)
    { legend; figure octets 2; } | section "Octets over time" \
        "In steps of $each.$marks The octets of a flow are spread evenly from its first packet to its last."
    { legend; figure packets 3; numbers; } | section "Packets over time" "In the same steps, in the same way."
}

protocols() {
    mlr --icsv --ocsv --headerless-csv-output stats1 -a count,sum -f octets,packets -g name then sort -nr octets_sum -f name then \
        put '$share = fmtnum(100.0 * $octets_sum / '"$octets"', "%.1f") . "%"' then \
        cut -o -f name,octets_count,packets_sum,octets_sum,share "$work/flows.csv" |
        bars protocols 4 protocol flows packets octets share | section "Protocols" "The share is that of the octets."
}

# What became of the packets of the capture, by the summary of `meter`.
packets_of_capture() {
    local cut=
    [ "$(summary_value tail)" = 0 ] || cut=" The capture ends within a packet, which isn't among these."
    printf '%s\n' "in the records,$(summary_value accepted)" "neither IPv4 nor IPv6,$(summary_value not-ip)" \
        "link or IP header not captured whole,$(summary_value short)" \
        "IP header contradicts itself,$(summary_value bad-header)" \
        "TCP or UDP not captured up to ports and flags,$(summary_value short-transport)" \
        "time with a fraction of a second or more,$(summary_value bad-time)" |
        bars capture 2 "what became of them" packets |
        section "Packets of the capture" "All $(grouped "$(summary_value captured)") packets; \
those of the rows after the first were left out.$cut"
}

tops() {
    top '$source' | bars talkers 2 address octets packets | section "Top talkers" "The ten addresses that sent most octets."
    top '$source < $destination ? $source . " and " . $destination : $destination . " and " . $source' |
        bars conversations 2 addresses octets packets |
        section "Top conversations" "The ten pairs of addresses with most octets, both ways together."
    top '($protocol == 6 || $protocol == 17) ? $name . " port " . min($source_port, $destination_port) : ""' |
        bars ports 2 port octets packets |
        section "Top ports" "TCP and UDP, by the lower port of each flow, which mostly is the service."
}

ends() {
    mlr --icsv --ocsv --headerless-csv-output stats1 -a count,sum -f octets -g reason then \
        sort -nr octets_count -nf reason then put '
            $label = {"1": "idle time-out: nothing more came", "2": "active time-out: it went on",
                "3": "end detected: FIN or RST", "4": "the capture ended"}[string($reason)] ?? "reason ".$reason;
        ' then cut -o -f label,octets_count,octets_sum "$work/flows.csv" |
        bars reasons 2 reason flows octets | section "How flows ended" ""
    lengths '$last - $first' "$work/flows.csv" | bars lengths 2 "from first packet to last" flows octets |
        section "How long flows lasted" ""
}

answers() {
    # Of some records it can't be said that no answer came, so they have rows of their own: the last ACK after a FIN is a flow of
    # its own, and later IP fragments have no ports. All biflows less those that are answered are one way.
    mlr --icsv --ocsv --headerless-csv-output put -q '
        begin {
            for (name in ["answered", "not answered", "one-way TCP without SYN", "one-way later IP fragments"]) { @count[name] = 0 }
        }
        ported = $protocol == 6 || $protocol == 17;
        kind = "not answered";
        if ($protocol == 6 && $flags & 2 == 0) { kind = "one-way TCP without SYN" }
        if (ported && $source_port == 0 && $destination_port == 0) { kind = "one-way later IP fragments" }
        if (FILENAME =~ "answered.csv$") {
            @count[kind] -= 1;
            @count["answered"] += 1;
        } else {
            @count[kind] += 1;
        }
        end {
            for (name, count in @count) { emit1 {"name": name, "count": count} }
        }
    ' "$work/biflows.csv" "$work/answered.csv" | bars answered 2 biflows number | section "Which were answered" \
        "A biflow is a flow with its reverse, or a flow that has none. The last two rows aren't requests: the last ACK after a FIN, \
for example, needs no answer."
    lengths '$back_first - $first' "$work/answered.csv" |
        bars delays 2 "from first packet to first of the answer" biflows octets | section "How soon they were answered" ""
    mlr --icsv --ocsv --headerless-csv-output put '
            func end_of(str address, int port): str {
                return (address =~ ":" ? "[" . address . "]" : address) . ":" . port;
            }
            if (($protocol == 6 || $protocol == 17) && ($source_port != 0 || $destination_port != 0)) {
                $label = end_of($source, $source_port) . " to " . end_of($destination, $destination_port) . " (" . $name . ")";
            } else {
                $label = $source . " to " . $destination . " (" . $name . ")";
            }
            $all = $octets + $back_octets;
        ' then sort -nr all -f label then head -n 10 then cut -o -f label,octets,back_octets "$work/answered.csv" |
        bars biflows 2 biflow "octets out" "octets back" |
        section "Top biflows" "The ten answered flows with most octets both ways. Out is the way that began first; \
where both began in one millisecond it may be the other. Bars show the octets both ways."
}

head_of_page() {
    local here
    here=$(escaped <<<"$title")
    cat <<HTML
<!DOCTYPE html>
<html lang="en">
<head>
<meta charset="utf-8">
<meta name="viewport" content="width=device-width, initial-scale=1">
<title>$here</title>
<style>
:root { color-scheme: light dark; --page: #ffffff; --text: #1c2733; --soft: #5b6875; --line: #d5dce3; --bar: #bcd6ee;
  --box: #f5f8fa; }
@media (prefers-color-scheme: dark) {
  :root { --page: #14191f; --text: #e3e9ef; --soft: #9aa7b4; --line: #36414c; --bar: #2b5478; --box: #1b222a; }
}
body { margin: 0 auto; padding: 1rem; max-width: 75rem; background: var(--page); color: var(--text);
  font: 1rem/1.45 system-ui, -apple-system, "Segoe UI", sans-serif; }
h1 { font-size: 1.5rem; margin: 0 0 .3rem; }
h2 { font-size: 1.1rem; margin: 0 0 .5rem; }
main { display: grid; grid-template-columns: repeat(auto-fit, minmax(min(100%, 27rem), 1fr)); gap: 1rem; }
section { background: var(--box); border: 1px solid var(--line); border-radius: .5rem; padding: .8rem 1rem; min-width: 0;
  break-inside: avoid; }
.facts { display: flex; flex-wrap: wrap; gap: .2rem 2rem; margin: .4rem 0 1rem; padding: 0; list-style: none; }
.facts b { font-size: 1.25rem; font-variant-numeric: tabular-nums; }
dl { display: grid; grid-template-columns: max-content 1fr; gap: .1rem .8rem; margin: 0; font-size: .9rem; }
dt { color: var(--soft); }
dd { margin: 0; overflow-wrap: anywhere; }
.note { color: var(--soft); font-size: .85rem; margin: .5rem 0 0; }
svg { display: block; width: 100%; max-width: 38rem; height: auto; }
table { border-collapse: collapse; width: 100%; font-size: .9rem; }
th { text-align: left; font-weight: 600; color: var(--soft); border-bottom: 1px solid var(--line); padding: .2rem .3rem; }
td { padding: .2rem .3rem; vertical-align: top; }
.number { text-align: right; font-variant-numeric: tabular-nums; white-space: nowrap; }
th.number { white-space: normal; }
.bars td:first-child { position: relative; width: 55%; min-width: 4rem; overflow-wrap: anywhere; }
.bars i { position: absolute; left: 0; top: .1rem; bottom: .1rem; background: var(--bar); border-radius: .2rem; }
.bars span { position: relative; }
.legend { display: flex; flex-wrap: wrap; gap: .2rem 1rem; margin: 0 0 .3rem; font-size: .9rem; }
.legend b { display: inline-block; width: .8rem; height: .8rem; margin-right: .35rem; border-radius: .15rem; }
.wide { overflow-x: auto; }
.wide td { text-align: right; white-space: nowrap; }
summary { color: var(--soft); font-size: .85rem; }
i, b { print-color-adjust: exact; -webkit-print-color-adjust: exact; }
@media (max-width: 34rem) {
  body { padding: .6rem; }
  section { padding: .6rem; overflow-x: auto; }
  #protocols { font-size: .75rem; }
  #protocols td:first-child { width: 30%; }
}
@media print {
  section { overflow-x: visible; }
  svg { max-width: 27rem; }
  :root { --page: #fff; --text: #000; --soft: #444; --line: #bbb; --bar: #cfe0ef; --box: #fff; color-scheme: light; }
  body { max-width: none; padding: 0; font-size: 10pt; }
}
</style>
</head>
<body>
HTML
    echo "<h1>$here</h1>"
}

# What the page is of: the inputs and the time-outs.
sources() {
    local told="not told; those of <code>meter</code> are 300 s and 1,800 s unless it is given others"
    [ -z "$idle$active" ] || told="idle ${idle:-not told}${idle:+ s}, active ${active:-not told}${active:+ s}"
    echo "<dl><dt>Flows</dt><dd>$(escaped <<<"$flows_file")</dd>"
    [ -z "$biflows_file" ] || echo "<dt>Biflows</dt><dd>$(escaped <<<"$biflows_file")</dd>"
    [ -z "$summary_file" ] || echo "<dt>Summary</dt><dd>$(escaped <<<"$summary_file")</dd>"
    echo "<dt>Time-outs</dt><dd id=\"time-outs\">$told</dd></dl>"
}

# Mean and peak rate, which a moment alone hasn't. A few steps may all be below the mean, and then no peak is told.
rates() {
    local most
    [ "$last" -gt "$first" ] || return 0
    echo "<li><b id=\"mean\">$(rate "$octets" $((last - first)))</b> on average</li>"
    most=$(awk '{ sum = 0; for (k = 2; k <= NF; k += 2) sum += $k; if (sum > most) most = sum } END { printf "%.4f", most }' "$work/steps")
    if awk -v most="$most" -v octets="$octets" -v step="$step" -v time=$((last - first)) \
        'BEGIN { exit !(most * time >= octets * step) }'; then
        echo "<li><b id=\"peak\">$(rate "$most" "$step")</b> in the busiest $(length_of_step)</li>"
    fi
}

page() {
    head_of_page
    sources
    if [ -z "$flows" ]; then
        echo "<p>The stream has no flow records.</p></body></html>"
        return
    fi
    echo "<p>From $(clock "$first") to $(clock "$last") UTC</p>"
    echo "<ul class=\"facts\">"
    counted octets "$octets" octet
    counted packets "$packets" packet
    counted flows "$flows" "flow record"
    rates
    echo "</ul><main>"
    over_time
    protocols
    [ -z "$summary_file" ] || packets_of_capture
    tops
    ends
    [ ! -e "$work/biflows.csv" ] || answers
    echo "</main></body></html>"
}

if has_reverse "$flows_file"; then
    refuse 1 "$flows_file is a stream of biflows; the first input is the stream of \`romtyalig meter\`, and biflows are the second"
fi
table "$flows_file" "${common[@]}" >"$work/flows.csv"
if [ -n "$biflows_file" ]; then
    has_reverse "$biflows_file" || refuse 1 "$biflows_file is no stream of biflows, which \`romtyalig-pair\` writes"
    table "$biflows_file" "${common[@]}" >"$work/biflows.csv"
    table "$biflows_file" "${common[@]}" "${reverse[@]}" >"$work/answered.csv"
fi
mlr --icsv --ocsv stats1 -a count,sum,min,max -f octets,packets,first,last "$work/flows.csv" >"$work/facts.csv"
flows=$(value octets_count "$work/facts.csv")
packets=$(value packets_sum "$work/facts.csv") octets=$(value octets_sum "$work/facts.csv")
[ -z "$summary_file" ] || check_summary "${packets:-0}" "${octets:-0}"
if [ -n "$flows" ]; then
    first=$(value first_min "$work/facts.csv") last=$(value last_max "$work/facts.csv")
    # The four protocols with most octets; where there are more, the fifth name stands for all others.
    names=$(mlr --icsv --onidx stats1 -a sum -f octets -g name then sort -nr octets_sum -f name then head -n 5 then \
        cut -f name "$work/flows.csv" | awk 'NR == 5 { $0 = "others" } { print }' | paste -sd ,)
    step=$(step_for 60 $((last - first)))
    start=$((first / step * step))
    steps
    rows=$(wc -l <"$work/steps")
    mark=$(step_for 5 $((rows * step)))
fi
page >"$work/page"
cat "$work/page"
