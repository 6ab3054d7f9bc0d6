#!/bin/bash
# The completions of bash and zsh, each typed into an interactive shell in a terminal of tmux.
#
#     checks/completions.sh
#
# In a folder with some files a beginning of a line is typed and then the tabulator key, and the line must become what the table at
# the end says. bash loads each file as its package bash-completion does where that is installed, by the first word of the line.
# One line for each shell that is as it should be, and for each row that isn't. Without tmux, or without a shell, that is skipped
# with one line. The status is not 0 where any differs.
# shellcheck disable=SC2317 # rows of a shell are called by its name
set -u

top=$(dirname "$(cd "$(dirname "$0")" && pwd)")
export LC_ALL=C
if ! command -v tmux >/dev/null; then
    echo "skipped: completions, no tmux"
    exit 0
fi
work=$(mktemp -d) || exit 2
shell=none
# Each shell has a server of tmux of its own: one that was told to end may still take the next session and end it.
terminal() { tmux -L "completions.$$.$shell" -f /dev/null "$@"; }
# shellcheck disable=SC2317,SC2329 # the trap calls it
clean() {
    terminal kill-server 2>/dev/null
    rm -rf "$work"
}
trap clean EXIT
trap 'exit 2' HUP INT TERM
mkdir "$work/room" "$work/room/folder" "$work/loaded" "$work/loaded/completions"
cd "$work/room" || exit 2
touch capture.pcap flows.ipfix "two words.ipfix" folder/inner.ipfix
for file in "$top"/completions/*.bash; do
    cp "$file" "$work/loaded/completions/$(basename "$file" .bash)"
done
cat >"$work/bashrc" <<RC
PS1='% '
bind 'set show-all-if-ambiguous on'
bind 'set bell-style none'
if [ -r /usr/share/bash-completion/bash_completion ]; then
    BASH_COMPLETION_USER_DIR=$work/loaded
    . /usr/share/bash-completion/bash_completion
else
    for file in $work/loaded/completions/*; do . "\$file"; done
fi
RC
cat >"$work/.zshrc" <<RC
PS1='%% '
fpath=($top/completions \$fpath)
autoload -U compinit
compinit -u -D
unsetopt beep
RC

# Waits until a line of the screen is just this: shows LINE. Blanks at its end don't count, nor the = that zsh puts behind an option.
shows() {
    for _ in $(seq 200); do
        terminal capture-pane -p | sed 's/[ =]*$//' | grep -qxF -- "$1" && return
        sleep 0.05
    done
    return 1
}

differ=0
rows=0
# Types a beginning and the tabulator key, of which the line must become another one, or a list must have this line: row TYPED LINE
row() {
    terminal send-keys C-u C-l
    shows "%" && terminal send-keys -l -- "$1" && shows "% ${1%"${1##*[! ]}"}" && terminal send-keys Tab
    rows=$((rows + 1))
    if ! shows "$2"; then
        echo "DIFFERS: $shell, $1"
        terminal capture-pane -p | sed '/^$/d; s/^/    /' | head -n 5
        differ=$((differ + 1))
    fi
}

# What both shells make of a beginning.
common_rows() {
    row 'romtyalig met' '% romtyalig meter'
    row 'romtyalig self' '% romtyalig selftest'
    row 'romtyalig --vers' '% romtyalig --version'
    row 'romtyalig meter --id' '% romtyalig meter --idle'
    row 'romtyalig meter --idle 5 --pie' '% romtyalig meter --idle 5 --piece'
    row 'romtyalig make --see' '% romtyalig make --seed'
    row 'romtyalig selftest --ke' '% romtyalig selftest --keys'
    row 'romtyalig meter < cap' '% romtyalig meter < capture.pcap'
    row 'romtyalig meter <cap' '% romtyalig meter <capture.pcap'
    row 'romtyalig show < tw' '% romtyalig show < two\ words.ipfix'
    row 'romtyalig meter --idle=5 < capture.pcap > flo' '% romtyalig meter --idle=5 < capture.pcap > flows.ipfix'
    row 'romtyalig meter < fol' '% romtyalig meter < folder/'
    row 'romtyalig-pipe pi' '% romtyalig-pipe pipe'
    row 'romtyalig-pipe pipe --que' '% romtyalig-pipe pipe --queue'
    row 'romtyalig-pipe pipe < cap' '% romtyalig-pipe pipe < capture.pcap'
    row 'romtyalig-pcapng pc' '% romtyalig-pcapng pcapng'
    row 'romtyalig-pcapng pcapng < cap' '% romtyalig-pcapng pcapng < capture.pcap'
    row 'romtyalig-pair pa' '% romtyalig-pair pair'
    row 'romtyalig-pair pair --si' '% romtyalig-pair pair --size'
    row 'romtyalig-pair pair < flo' '% romtyalig-pair pair < flows.ipfix'
    row 'romtyalig-watch wa' '% romtyalig-watch watch'
    row 'romtyalig-watch watch --as' '% romtyalig-watch watch --asks'
    row 'romtyalig-watch watch < cap' '% romtyalig-watch watch < capture.pcap'
    row 'romtyalig-join jo' '% romtyalig-join join'
    row 'romtyalig-join join --act' '% romtyalig-join join --active'
    row 'romtyalig-join join tw' '% romtyalig-join join two\ words.ipfix'
    row 'romtyalig-join join fol' '% romtyalig-join join folder/'
    row 'romtyalig-join join --size 400 flows.ipfix folder/i' '% romtyalig-join join --size 400 flows.ipfix folder/inner.ipfix'
    row 'romtyalig-join join flows.ipfix > tw' '% romtyalig-join join flows.ipfix > two\ words.ipfix'
}

# Rows of a shell, in a terminal of its own: in_shell NAME COMMAND
in_shell() {
    shell=$1
    if ! command -v "$shell" >/dev/null; then
        echo "skipped: completions of $shell, no $shell"
        return
    fi
    local before=$differ
    rows=0
    terminal new-session -d -x 160 -y 30 "$2"
    common_rows
    "rows_of_$shell"
    terminal kill-server
    [ "$differ" -gt "$before" ] || echo "same: $shell completes $rows beginnings"
}
rows_of_bash() {
    row 'romtyalig meter ' '--active   --help     --idle     --piece    --sets     --size     --workers'
}
rows_of_zsh() {
    row 'romtyalig ' 'meter            -- group the packets of a capture into flows, as IPFIX'
}

in_shell bash "exec bash --noprofile --rcfile '$work/bashrc' -i"
in_shell zsh "ZDOTDIR='$work' exec zsh -i"
exit $((differ > 0))
