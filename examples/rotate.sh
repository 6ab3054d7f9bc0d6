#!/bin/sh
# Meters captures as they are closed, leaves each stream beside its capture, and keeps no more than it is told to.
#
#     tcpdump -i eth0 -n -s 128 -G 300 -w '/var/lib/romtyalig/%Y%m%dT%H%M%S.pcap' -z /path/to/rotate.sh
#     rotate.sh FILE.pcap..
#     rotate.sh --rest FOLDER
#
# tcpdump calls it with each file that it closed. The stream of NAME.pcap is NAME.ipfix, which has that name only once it is whole;
# that of NAME.pcap2, as `tcpdump -C` names files, is NAME2.ipfix. A line on standard output tells the summary. Then, in the folder
# of the file, the oldest captures whose stream is there are removed until at most KEEP_CAPTURES megabytes of captures are left, and
# the oldest streams until at most KEEP_STREAMS megabytes of streams are (1000 and 5000 unless set). A capture that `meter` refuses
# stays, without a stream, and a line on standard error says why; the status is then 1. With --rest all captures of a folder that
# have no stream are metered, as after a stop of tcpdump, which doesn't hand over its last file. Calls on one folder wait for each
# other.
#
# METER is the command that meters, `romtyalig meter` unless set. SEND is a command that gets each stream on standard input once it
# is whole, as "/path/to/to_collector.py HOST PORT"; where it fails the stream stays, a line says so, and the status is 1.
set -u
: "${METER:=romtyalig meter}" "${KEEP_CAPTURES:=1000}" "${KEEP_STREAMS:=5000}" "${SEND:=}"

# Says why nothing is done, and ends with a status: fail STATUS REASON
fail() {
    echo "rotate.sh: $2" >&2
    exit "$1"
}

# The name of a capture's stream.
stream_of() {
    case ${1##*/} in
    *.pcap) echo "${1%.pcap}.ipfix" ;;
    *.pcap[0-9]*) echo "${1%.pcap[0-9]*}${1##*.pcap}.ipfix" ;;
    *) echo "$1.ipfix" ;;
    esac
}

# Meters a file: status 1 where it is refused. One that was metered and removed, while this call waited, is no fault.
meter() {
    stream=$(stream_of "$1")
    if [ ! -e "$1" ] && [ -e "$stream" ]; then return; fi
    if [ ! -f "$1" ]; then
        echo "rotate.sh: no file $1" >&2
        return 1
    fi
    if $METER <"$1" >"$stream.part" 2>"$stream.stderr"; then
        mv "$stream.part" "$stream"
        echo "$1: $(tr '\n' ' ' <"$stream.stderr")"
        rm -f "$stream.stderr"
        send "$stream"
    else
        echo "$1: not metered: $(head -n 1 "$stream.stderr")" >&2
        rm -f "$stream.part" "$stream.stderr"
        return 1
    fi
}

# Hands a stream on, where that is wanted.
send() {
    [ -n "$SEND" ] || return 0
    sent=0
    $SEND <"$1" 2>"$1.stderr" || sent=$?
    [ "$sent" -eq 0 ] || echo "$1: not sent, status $sent: $(tail -n 1 "$1.stderr")" >&2
    rm -f "$1.stderr"
    return "$sent"
}

# The captures of a folder, one to a line, with what `find` is told to print of each.
captures_of() {
    find "$1" -maxdepth 1 -type f \( -name '*.pcap' -o -name '*.pcap[0-9]*' \) -printf "$2"
}

# Removes what standard input lists, a line of time, size and name for each file, from the oldest on, until at most so many
# megabytes are left; what has no stream stays.
limit() {
    sort -rn | while read -r _ size file; do
        sum=$((${sum:-0} + size))
        if [ "$sum" -gt $(($1 * 1000000)) ]; then
            case $file in *.ipfix) stream=$file ;; *) stream=$(stream_of "$file") ;; esac
            [ ! -e "$stream" ] || rm -f "$file"
        fi
    done
}

# Meters the files, all in one folder, and keeps its limits: rotate FOLDER FILE..
rotate() {
    folder=$1
    shift
    failed=0
    for file in "$@"; do
        meter "$file" || failed=1
    done
    captures_of "$folder" '%T@ %s %p\n' | limit "$KEEP_CAPTURES"
    find "$folder" -maxdepth 1 -type f -name '*.ipfix' -printf '%T@ %s %p\n' | limit "$KEEP_STREAMS"
    return "$failed"
}

# The same for all captures of a folder that have no stream.
rest() {
    folder=$1
    set --
    for file in "$folder"/*.pcap "$folder"/*.pcap[0-9]*; do
        if [ -f "$file" ] && [ ! -e "$(stream_of "$file")" ]; then set -- "$@" "$file"; fi
    done
    rotate "$folder" "$@"
}

# Waits until no other call works on a folder.
hold() {
    [ -d "$1" ] || fail 1 "no folder $1"
    exec 9<"$1"
    flock 9 || fail 1 "can't lock $1"
}

for limit in "$KEEP_CAPTURES" "$KEEP_STREAMS"; do
    case $limit in '' | *[!0-9]*) fail 2 "KEEP_CAPTURES and KEEP_STREAMS are whole megabytes, not '$limit'" ;; esac
done
case ${1:-},$# in
--help,* | -h,*) sed -n '2,${/^#/!q; s/^# \{0,1\}//p; }' "$0" ;;
--rest,2)
    hold "$2"
    rest "$2"
    ;;
-*,* | *,0) fail 2 "usage: rotate.sh FILE.pcap.., rotate.sh --rest FOLDER, or rotate.sh --help" ;;
*)
    hold "$(dirname "$1")"
    rotate "$(dirname "$1")" "$@"
    ;;
esac
