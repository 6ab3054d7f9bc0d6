#!/bin/sh
# A task of an array that submit.sh submits.
#
#     task.sh MANY meter STREAMS LIST FIRST
#     task.sh MANY join CAPTURES STREAMS WHOLE
#
# MANY is the path of many.sh, since Slurm runs a copy of this file. The first form meters one capture: the line of LIST
# with the number FIRST plus the task's. The second joins; with PARTS above 1, only the part with the task's number.
set -u
case ${1:-},$#,${SLURM_ARRAY_TASK_ID:+set} in
--help,* | -h,*)
    sed -n '2,${/^#/!q; s/^# \{0,1\}//p; }' "$0"
    exit
    ;;
*,5,set) ;;
*)
    echo "task.sh: submit.sh submits it to Slurm; task.sh --help says more" >&2
    exit 2
    ;;
esac
many=$1 work=$2
shift 2
if [ "$work" = meter ]; then
    exec "$many" --meter "$1" "$(sed -n "$(($3 + SLURM_ARRAY_TASK_ID))p" "$2")"
elif [ "$PARTS" -eq 1 ]; then
    exec "$many" --join "$@"
else
    exec "$many" --join "$@" "$SLURM_ARRAY_TASK_ID"
fi
