#!/bin/sh
# Tries all must-fail edits, those that the gate tries and the further ones: the checker must refuse each.
#
#     checks/edits.sh [--further] [CRATE]..
#
# Without crates: the edits of all of them, several at a time, by the gate itself in a copy that has the crates with edits
# and what these stand on; the programs and the trials have none. With crates: theirs alone, one crate after another, with
# a line for each. With --further those of more-edits/ alone, since the gate tries the others. What is committed is cloned
# into a temporary folder, where the edits of crates/NAME/more-edits/ are laid beside those of crates/NAME/must-fail/; so
# nothing changes here. An edit that the checker doesn't refuse, or that can't be tried, is named. The last line counts;
# the status is not 0 where an edit isn't refused. It proves the crates from nothing and takes an hour or more; this is no
# part of the gate.
set -u

top=$(dirname "$(cd "$(dirname "$0")" && pwd)")

work=$(mktemp -d) || exit 2
trap 'rm -rf "$work"' EXIT
trap 'exit 2' HUP INT TERM

further=
if [ "${1:-}" = --further ]; then
    further=1
    shift
fi
git clone -q "$top" "$work/copy" && cd "$work/copy" || exit 2

# The crates that have edits and those that they stand on, the highest first: crates.txt names a crate below all that it stands on.
needed() {
    awk -v edited="$(find crates -path '*/m*/*.edit' | cut -d / -f 2 | sort -u | tr '\n' ' ')" '
        BEGIN { count = split(edited, name, " "); for (k = 1; k <= count; k++) is_needed[name[k]] = 1; lines = 0 }
        { sub(/#.*/, "") }
        /:/ { split($0, half, ":"); split(half[1], left, " "); crate[++lines] = left[1]; deps[lines] = half[2] }
        END {
            for (k = lines; k >= 1; k--) {
                if (!(crate[k] in is_needed)) continue
                print crate[k]
                count = split(deps[k], dep, " ")
                for (d = 1; d <= count; d++) is_needed[dep[d]] = 1
            }
        }' crates.txt
}

whole=
if [ $# -eq 0 ]; then
    whole=1
    needed >"$work/needed"
    for folder in crates/*; do
        name=${folder#crates/}
        grep -qx "$name" "$work/needed" || { rm -rf "$folder" && sed -i "/^$name:/d" crates.txt; }
    done
    # shellcheck disable=SC2046 # names of crates, in the order of crates.txt
    set -- $(sed -n 's/^\([a-z0-9_][a-z0-9_]*\).*:.*/\1/p' crates.txt)
fi

failed=0
for name in "$@"; do
    folder=crates/$name
    if [ ! -d "$folder" ]; then
        echo "no crate $name" >&2
        exit 2
    fi
    [ -z "$further" ] || rm -rf "$folder/must-fail"
    for edit in "$folder"/more-edits/*.edit; do
        [ -e "$edit" ] || continue
        mkdir -p "$folder/must-fail"
        if [ -e "$folder/must-fail/${edit##*/}" ]; then
            echo "twice: $name/${edit##*/}"
            failed=$((failed + 1))
        fi
        cp "$edit" "$folder/must-fail/"
    done
done
[ -z "$whole" ] || rt ci >"$work/told" 2>&1 || failed=$((failed + 1))

crates=0
edits=0
refused=0
for name in "$@"; do
    folder=crates/$name
    [ -d "$folder/must-fail" ] || continue
    [ -n "$whole" ] || rt must-fail "$name" >"$work/told" 2>&1 || failed=$((failed + 1))
    grep "must-fail $name/" "$work/told" | grep -E 'NOT REFUSED|NOT TRIED|BAD EDIT'
    own=$(find "$folder/must-fail" -name '*.edit' | wc -l)
    own_refused=$(grep "must-fail $name/" "$work/told" | grep -c ': refused, as it must be')
    echo "$name: $own_refused of $own refused"
    crates=$((crates + 1))
    edits=$((edits + own))
    refused=$((refused + own_refused))
done
[ "$edits" -eq "$refused" ] || tail -n 5 "$work/told"
echo "$crates crates, $edits edits: $refused refused, $((edits - refused)) not"
[ "$edits" -eq "$refused" ] && [ "$failed" -eq 0 ]
