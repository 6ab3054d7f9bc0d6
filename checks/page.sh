#!/bin/bash
# The manual pages, the completions, docs/OPERATORS.md and the programs know the same options.
#
#     checks/page.sh
#
# For each command its options are taken from its program's page, docs/OPERATORS.md and both completions, and must be the same in all;
# the program must take each of them, and refuse each name that is one letter longer or shorter. The examples of each page
# are run as they stand, and what they write isn't empty; those with a program that is missing (editcap, mergecap of
# wireshark-common) are skipped with one line. `mandoc` (Debian package mandoc) must find nothing to say of the pages; where it is
# missing that is skipped with one line too. The status is not 0 where anything differs. ROMTYALIG, ROMTYALIG_PIPE,
# ROMTYALIG_PCAPNG, ROMTYALIG_PAIR, ROMTYALIG_JOIN and ROMTYALIG_WATCH are the programs' paths (bin/romtyalig, bin/romtyalig-pipe
# and so on unless set).
set -u

here=$(cd "$(dirname "$0")" && pwd)
top=$(dirname "$here")
program=${ROMTYALIG:-$top/bin/romtyalig}
pipe=${ROMTYALIG_PIPE:-$top/bin/romtyalig-pipe}
filter=${ROMTYALIG_PCAPNG:-$top/bin/romtyalig-pcapng}
pair=${ROMTYALIG_PAIR:-$top/bin/romtyalig-pair}
join=${ROMTYALIG_JOIN:-$top/bin/romtyalig-join}
watch=${ROMTYALIG_WATCH:-$top/bin/romtyalig-watch}
export LC_ALL=C

for needed in "$program" "$pipe" "$filter" "$pair" "$join" "$watch"; do
    if [ ! -x "$needed" ]; then
        echo "no program at $needed" >&2
        exit 2
    fi
done
cd "$top" || exit 2
differ=0

differs() {
    echo "DIFFERS: $1"
    differ=$((differ + 1))
}

# The name of the program that has a command, and its path.
name_of() {
    case $1 in
    pipe | pcapng | pair | join | watch) echo "romtyalig-$1" ;;
    *) echo romtyalig ;;
    esac
}
path_of() {
    case $1 in
    pipe) echo "$pipe" ;;
    pcapng) echo "$filter" ;;
    pair) echo "$pair" ;;
    join) echo "$join" ;;
    watch) echo "$watch" ;;
    *) echo "$program" ;;
    esac
}

# The options of a command in each place.
in_page() {
    awk -v command="$1" '/^\.Cm / { found = ($2 == command) } /^\.Sh DESCRIPTION/ { exit } found && /Fl -/' "man/$(name_of "$1").1" |
        grep -o 'Fl -[a-z]*' | sed 's/Fl /-/' | sort
}
in_operators() { awk -F'|' -v command="\`$1\`" 'index($3, command) && $2 ~ /--/ { gsub(/[` ]/, "", $2); print $2 }' docs/OPERATORS.md | sort; }
# The completions offer --help too.
in_bash() {
    grep -E "^    ($1|\*(,-\*)?)\) options=" "completions/$(name_of "$1").bash" | grep -o -e '--[a-z]*' | grep -vx -e --help | sort
}
in_zsh() {
    awk -v command="$1" '$1 == command ")" || /^    _arguments/ { found = 1 } found && /;;/ { exit } found' \
        "completions/_$(name_of "$1")" | grep -o "'--[a-z]*=" | tr -d "'=" | sort
}

# What the command's program says of words, reading nothing; the words of join end with a file, here an empty one.
status_of() {
    local files=()
    [ "$1" = join ] && files=(/dev/null)
    "$(path_of "$1")" "$@" ${files[@]+"${files[@]}"} </dev/null >/dev/null 2>&1
    echo $?
}

# Whether these words are a command line with one of four values: one of them is in the range of each option.
is_taken() {
    local value
    for value in 1 116 308 262184; do
        [ "$(status_of "$@" "$value")" -eq 2 ] || return 0
    done
    return 1
}

for command in meter show make schedule selftest pipe pcapng pair join watch; do
    wanted=$(in_page "$command")
    for place in operators bash zsh; do
        [ "$wanted" = "$("in_$place" "$command")" ] || differs "options of $command in $place"
    done
    case $command in
    make | selftest) given=(--seed=1 --packets=1) ;;
    join) given=(--part=1 --parts=1) ;;
    *) given=() ;;
    esac
    [ "$(status_of "$command" ${given[@]+"${given[@]}"})" -ne 2 ] || differs "$command is refused"
    for option in $wanted; do
        others=()
        for other in ${given[@]+"${given[@]}"}; do
            [ "${other%%=*}" = "$option" ] || others+=("$other")
        done
        others=(${others[@]+"${others[@]}"})
        is_taken "$command" ${others[@]+"${others[@]}"} "$option" || differs "$command refuses $option"
        for wrong in "${option}s" "${option%?}"; do
            is_taken "$command" ${given[@]+"${given[@]}"} "$wrong" && differs "$command takes $wrong"
        done
    done
done

# Two options of join stand together or not at all.
for alone in --part=1 --parts=1; do
    [ "$(status_of join "$alone")" -eq 2 ] || differs "join takes $alone alone"
done

# The examples of the pages, in a folder with the files that they name.
work=$(mktemp -d) || exit 2
trap 'rm -rf "$work"' EXIT
trap 'exit 2' HUP INT TERM
mkdir "$work/bin"
for each in "$program" "$pipe" "$filter" "$pair" "$join" "$watch"; do
    name=romtyalig
    case $each in
    "$pipe") name=romtyalig-pipe ;;
    "$filter") name=romtyalig-pcapng ;;
    "$pair") name=romtyalig-pair ;;
    "$join") name=romtyalig-join ;;
    "$watch") name=romtyalig-watch ;;
    esac
    ln -s "$(realpath "$each")" "$work/bin/$name"
done
ln -s "$top/examples/named.py" "$work/bin/romtyalig-named"
cp examples/web-exchange.pcap "$work/c.pcap"
cp examples/web-exchange.pcap "$work/a.pcap"
cp examples/udp-flows.pcap "$work/b.pcap"
gzip -k "$work/c.pcap"
command -v editcap >/dev/null && editcap -F pcapng "$work/c.pcap" "$work/c.pcapng"
for page in man/*.1; do
    awk '/^\.Sh/ { found = ($2 == "EXAMPLES") } found && sub(/^\.Dl /, "")' "$page" >"$work/all"
    [ -s "$work/all" ] || differs "$page has no examples"
    missing='^$'
    command -v mergecap >/dev/null || missing="$missing|mergecap"
    [ -e "$work/c.pcapng" ] || missing="$missing|pcapng"
    grep -Ev "$missing" "$work/all" >"$work/commands"
    [ "$(wc -l <"$work/commands")" -eq "$(wc -l <"$work/all")" ] || echo "skipped: examples of $page, no mergecap or editcap"
    (cd "$work" && PATH="$work/bin:$PATH" bash -euo pipefail commands >out 2>said &&
        [ -z "$(find . -name '*.ipfix' -empty)" ]) || differs "examples of $page"
done

if command -v mandoc >/dev/null; then
    for page in man/*.1; do
        mandoc -Tlint -Wwarning "$page" || differs "$page"
    done
else
    echo "skipped: no mandoc"
fi
[ "$differ" -eq 0 ] && echo "pages, completions, docs/OPERATORS.md and programs have the same options"
[ "$differ" -eq 0 ]
