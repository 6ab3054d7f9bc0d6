#!/bin/sh
# Meters a folder of captures, several at a time, and joins their streams to one.
#
#     many.sh [--keep-going] CAPTURES STREAMS [WHOLE]
#     many.sh --meter STREAMS CAPTURE
#     many.sh --join CAPTURES STREAMS WHOLE [PART]
#
# The stream of CAPTURES/NAME.pcap is STREAMS/NAME.ipfix, and WHOLE, which isn't to lie in STREAMS, is all of them
# joined. A stream has its name only once it is whole. Run again, only what isn't there is made: the streams that are
# missing, and WHOLE where a stream is newer; a capture that changed isn't looked at. A line on standard output tells
# the summary of each capture, and that the whole is made. A line on standard error names each file of CAPTURES that is left
# out, since its name doesn't end in .pcap, and each capture or stream that is refused, and says why. Then WHOLE isn't
# made, and the status is 1; with --keep-going the others are joined, and the status is 1 all the same.
#
# By --meter one capture is metered alone, by --join the streams of a folder's captures are joined, without WHOLE's
# ending only PART of PARTS.
#
# JOBS is how many meter at a time, one a processor unless set. With PARTS above 1 WHOLE is so many files, by key:
# DAY.ipfix becomes DAY.1.ipfix to DAY.PARTS.ipfix, each joined with a PARTS-th of the memory. TIMEOUTS are options of
# `meter` and `join` alike, as "--idle 60 --active 300". METER and JOIN are the commands, `romtyalig meter` and
# `romtyalig-join join` unless set.
set -u
: "${METER:=romtyalig meter}" "${JOIN:=romtyalig-join join}" "${TIMEOUTS:=}" "${PARTS:=1}" "${JOBS:=$(nproc)}"
: "${KEEP_GOING:=}"
unfinished=
trap '[ -z "$unfinished" ] || rm -f "$unfinished" "$unfinished.stderr"' EXIT
trap 'exit 1' HUP INT TERM

# Says why nothing is done, and ends with a status: fail STATUS REASON
fail() {
    echo "many.sh: $2" >&2
    exit "$1"
}

# Whether these words are whole numbers from 1.
are_counts() {
    for word in "$@"; do
        case $word in '' | 0* | *[!0-9]*) return 1 ;; esac
    done
}

# Begins a file that will get this name.
begin() {
    unfinished=$1.$(uname -n).$$
}

# Ends it, by whether what wrote it did well and what it reported: end GOOD NAME SOURCE. A refusal names the source.
end() {
    [ "$1" -ne 0 ] || mv "$unfinished" "$2" || set -- 1 "$2" "$3"
    if [ "$1" -eq 0 ]; then
        told=$(sed 's/^romtyalig-[a-z]*: //' "$unfinished.stderr" | tr '\n' ' ')
        echo "$2: ${told:-made}"
    else
        echo "$3: not made into $2, status $1: $(head -n 1 "$unfinished.stderr")" >&2
    fi
    rm -f "$unfinished" "$unfinished.stderr"
    unfinished=
    return "$1"
}

# The name of a capture's stream: stream_of CAPTURE STREAMS
stream_of() {
    echo "$2/$(basename "$1" .pcap).ipfix"
}

# Meters a capture, where its stream isn't there: meter STREAMS CAPTURE
meter() {
    [ -f "$2" ] || fail 1 "no file $2"
    stream=$(stream_of "$2" "$1")
    [ -e "$stream" ] && return
    begin "$stream"
    # shellcheck disable=SC2086 # the command and its options are words
    $METER $TIMEOUTS <"$2" >"$unfinished" 2>"$unfinished.stderr"
    end $? "$stream" "$2"
}

# Joins the streams of a folder's captures, where that isn't done or one is newer: join CAPTURES STREAMS WHOLE [PART]
join() {
    captures=$1 streams=$2 whole=$3 part=${4:-}
    set --
    for capture in "$captures"/*.pcap; do
        stream=$(stream_of "$capture" "$streams")
        if [ -z "$KEEP_GOING" ] || [ -e "$stream" ]; then set -- "$@" "$stream"; fi
    done
    [ $# -gt 0 ] || fail 1 "no streams in $streams"
    options=$TIMEOUTS
    if [ -n "$part" ]; then
        whole=${whole%.ipfix}.$part.ipfix
        options="$options --part $part --parts $PARTS"
    fi
    if [ -e "$whole" ] && newer=$(find "$@" -newer "$whole") && [ -z "$newer" ]; then return; fi
    begin "$whole"
    # shellcheck disable=SC2086 # the command and its options are words
    $JOIN $options "$@" >"$unfinished" 2>"$unfinished.stderr"
    end $? "$whole" "$streams"
}

# Names what a folder has beside captures and streams.
name_others() {
    find -L "$1" -maxdepth 1 -type f ! -name '*.pcap' ! -name '*.ipfix*' | sort | while read -r file; do
        case $file in
        *.pcapng) reason="for romtyalig-pcapng" ;;
        *.gz | *.xz | *.zst | *.bz2) reason="compressed" ;;
        *) reason="its name doesn't end in .pcap" ;;
        esac
        echo "many.sh: left out: $file ($reason)" >&2
    done
}

# Meters all captures of a folder, and joins their streams: all CAPTURES STREAMS [WHOLE]
all() {
    [ -d "$1" ] || fail 1 "no folder $1"
    are_counts "$PARTS" "$JOBS" || fail 2 "PARTS and JOBS are numbers from 1, not '$PARTS' and '$JOBS'"
    name_others "$1"
    [ -n "$(find -L "$1" -maxdepth 1 -type f -name '*.pcap' -print -quit)" ] || fail 1 "no captures in $1"
    mkdir -p "$2" || exit
    failed=0
    find -L "$1" -maxdepth 1 -type f -name '*.pcap' -print0 | sort -z | xargs -0 -n 1 -P "$JOBS" "$0" --meter "$2" || failed=1
    if [ "$failed" -ne 0 ] && [ -z "$KEEP_GOING" ]; then return 1; fi
    [ $# -eq 3 ] || return "$failed"
    if [ "$PARTS" -eq 1 ]; then
        join "$1" "$2" "$3" || failed=1
    else
        seq "$PARTS" | xargs -n 1 -P "$JOBS" "$0" --join "$1" "$2" "$3" || failed=1
    fi
    return "$failed"
}

if [ "${1:-}" = --keep-going ]; then
    export KEEP_GOING=yes
    shift
fi
case ${1:-},$# in
--help,* | -h,*) sed -n '2,${/^#/!q; s/^# \{0,1\}//p; }' "$0" ;;
--meter,3) meter "$2" "$3" ;;
--join,4 | --join,5) join "$2" "$3" "$4" "${5:-}" ;;
-*,* | *,[014-9] | *,??*)
    fail 2 "usage: many.sh [--keep-going] CAPTURES STREAMS [WHOLE], or many.sh --help"
    ;;
*) all "$@" ;;
esac
