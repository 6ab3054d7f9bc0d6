#!/bin/sh
# Every `NoMemory` comes from an allocation that failed.
#
#     checks/no_memory.sh
#
# Looks at each place in the sources, outside tests, that makes a `NoMemory` of any enum, and names those places that
# don't make it from a failed allocation; `no_memory.py` says what counts as one. First it must find what is wrong with
# some planted lines, and nothing wrong with some right ones.
set -eu

here=$(cd "$(dirname "$0")" && pwd)
python3 "$here/no_memory.py" --planted
python3 "$here/no_memory.py" "$here/../crates"
