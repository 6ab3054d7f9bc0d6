#!/bin/sh
# The longest chain of crates, each of which stands on the one before, as crates.txt says: it bounds how early a gate can end on
# many processors.
#
#     tools/chain.sh [CRATE]
#
# Without an argument: the longest chain of all, one crate a line, with how many stand below it in the chain. With one:
# the longest chain that ends at this crate.
set -u

cd "$(dirname "$0")/.." || exit 2
awk -v asked="${1:-}" '
    { sub(/#.*/, "") }
    /:/ {
        split($0, half, ":")
        split(half[1], left, " ")
        name = left[1]
        deps = split(half[2], dep, " ")
        length_of[name] = 1
        for (k = 1; k <= deps; k++) {
            if (dep[k] in length_of && length_of[dep[k]] >= length_of[name]) {
                length_of[name] = length_of[dep[k]] + 1
                below[name] = dep[k]
            }
        }
        if (longest == "" || length_of[name] > length_of[longest]) longest = name
    }
    END {
        name = asked == "" ? longest : asked
        if (!(name in length_of)) exit 2
        for (k = length_of[name]; k >= 1; k--) {
            chain[k] = name
            name = below[name]
        }
        for (k = 1; k in chain; k++) print k - 1, chain[k]
    }' crates.txt
