#!/bin/sh
# Proves and builds all libraries that some crates stand on, with a line for each as it is proved.
#
#     tools/prove.sh CRATE..
#
# A crate is taken once those are proved that it stands on, by crates.txt; as many at a time as there are processors,
# and as there is memory for, 3 GiB each. A crate that hasn't changed since it was proved gives no line. The status is
# not 0 where a crate isn't proved.
set -u

top=$(dirname "$(cd "$(dirname "$0")" && pwd)")
cd "$top" || exit 2

# One crate, in the run of `make` below.
if [ "${1:-}" = --one ]; then
    log=$(mktemp) || exit 2
    trap 'rm -f "$log"' EXIT
    start=$(date +%s)
    (cd "crates/$2" && rt lib) >"$log" 2>&1
    status=$?
    if [ "$status" -ne 0 ]; then
        tail -n 20 "$log"
        echo "not proved: $2, status $status of \`rt lib\` (above 128 it was killed); \`make build\` goes on there" >&2
        exit 1
    fi
    echo "$2" >>"$4"
    if [ -s "$log" ]; then
        echo "proved $2, $(($(date +%s) - start)) s: $(wc -l <"$4") of $3 libraries"
    fi
    exit 0
fi

# A rule for each crate below these: what it stands on. Beside it a list of those that are proved.
rules=$(mktemp) || exit 2
proved=$(mktemp) || exit 2
trap 'rm -f "$rules" "$proved"' EXIT
trap 'exit 2' HUP INT TERM
awk -v asked="$*" -v proved="$proved" '
    { sub(/#.*/, "") }
    /:/ {
        split($0, half, ":")
        split(half[1], left, " ")
        names[++count] = left[1]
        uses[left[1]] = half[2]
    }
    END {
        split(asked, word, " ")
        for (k in word) asks[word[k]] = 1
        for (i = count; i >= 1; i--) {
            if (!(names[i] in asks) && !(names[i] in wanted)) continue
            deps = split(uses[names[i]], dep, " ")
            for (k = 1; k <= deps; k++) wanted[dep[k]] = 1
        }
        for (i = 1; i <= count; i++) is_own[names[i]] = 1
        for (i = 1; i <= count; i++) if (names[i] in wanted) { all = all " " names[i]; sum++ }
        print ".PHONY: all" all
        print "all:" all
        for (i = 1; i <= count; i++) {
            if (!(names[i] in wanted)) continue
            line = names[i] ":"
            deps = split(uses[names[i]], dep, " ")
            for (k = 1; k <= deps; k++) if (dep[k] in is_own) line = line " " dep[k]
            print line
            print "\t@tools/prove.sh --one " names[i] " " sum " " proved
        }
    }' crates.txt >"$rules"

jobs=$(awk -v own="$(nproc)" '/^MemAvailable:/ { fit = int($2 / 3145728) } END { print fit < 1 ? 1 : fit < own ? fit : own }' /proc/meminfo)
MAKEFLAGS= make --no-print-directory --file="$rules" --jobs="$jobs" all
