#!/bin/sh
# Has a Slurm cluster meter a folder of captures, each in a task of its own, and join their streams to one behind it.
#
#     submit.sh CAPTURES STREAMS [WHOLE]
#
# Folders, files and environment are those of examples/many.sh, and lie where all nodes see them under the same names,
# as this folder and the programs do. An array job meters each capture that has no stream yet, and a job that depends
# on it joins; with PARTS above 1 it is an array too, with a task for each part. The numbers of the jobs go to
# standard output, a line each: `meter N` and `join N`. Where a task fails its stream isn't there, the log in
# STREAMS/logs says why, and the join is cancelled: submit again, and only what isn't there is metered.
#
# SBATCH are options of `sbatch` for all jobs, as "--partition all --time 60". An array has at most ARRAY tasks (1000
# unless set, the most that Slurm takes where MaxArraySize isn't set); for more captures there are several.
set -eu
: "${ARRAY:=1000}" "${SBATCH:=}" "${PARTS:=1}"
export PARTS

# Says why nothing is submitted, and ends with a status: fail STATUS REASON
fail() {
    echo "submit.sh: $2" >&2
    exit "$1"
}

case ${1:-},$# in
--help,* | -h,*)
    sed -n '2,${/^#/!q; s/^# \{0,1\}//p; }' "$0"
    exit
    ;;
-*,* | *,[014-9] | *,??*) fail 2 "usage: submit.sh CAPTURES STREAMS [WHOLE], or submit.sh --help" ;;
esac
for count in "$ARRAY" "$PARTS"; do
    case $count in '' | 0* | *[!0-9]*) fail 2 "ARRAY and PARTS are numbers from 1, not '$count'" ;; esac
done
[ -d "$1" ] || fail 1 "no folder $1"
[ -n "$(find -L "$1" -maxdepth 1 -type f -name '*.pcap' -print -quit)" ] || fail 1 "no captures in $1"
command -v sbatch >/dev/null || fail 1 "no sbatch here (package slurm-wlm)"
here=$(cd "$(dirname "$0")" && pwd)
many=$(dirname "$here")/many.sh
captures=$(realpath "$1")
mkdir -p "$2/logs"
streams=$(realpath "$2")

# Submits an array of so many tasks, and says its number: submit NAME TASKS [OPTION..] -- WORD..
submit() {
    name=$1 tasks=$2
    shift 2
    # shellcheck disable=SC2086 # the options are words
    sbatch --parsable --job-name="$name" --array="1-$tasks" --output="$streams/logs/%x-%A-%a.log" $SBATCH "$@"
}

# The captures that have no stream, a line each.
list=$(mktemp "$streams/logs/list.XXXXXX")
chmod 644 "$list"
for capture in "$captures"/*.pcap; do
    [ -e "$capture" ] || continue
    [ -e "$streams/$(basename "$capture" .pcap).ipfix" ] || echo "$capture"
done >"$list"
count=$(wc -l <"$list")
first=0
metering=
while [ "$first" -lt "$count" ]; do
    tasks=$((count - first < ARRAY ? count - first : ARRAY))
    number=$(submit meter "$tasks" "$here/task.sh" "$many" meter "$streams" "$list" "$first")
    echo "meter $number"
    metering=$metering:$number
    first=$((first + tasks))
done
[ $# -eq 3 ] || exit 0
set -- "$here/task.sh" "$many" join "$captures" "$streams" "$(realpath "$3")"
if [ -n "$metering" ]; then
    set -- --dependency="afterok$metering" --kill-on-invalid-dep=yes "$@"
fi
echo "join $(submit join "$PARTS" "$@")"
