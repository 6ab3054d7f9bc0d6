# Completion of romtyalig's words for bash: the command, then its options; after < and > names of files.

_romtyalig() {
    local word=${COMP_WORDS[COMP_CWORD]} before=${COMP_WORDS[COMP_CWORD - 1]} options=
    COMPREPLY=()
    case ${COMP_WORDS[1]} in
    meter) options="--idle --active --size --workers --sets --piece --help" ;;
    make) options="--seed --packets --keys --help" ;;
    selftest) options="--seed --packets --keys --help" ;;
    show | schedule) options="--help" ;;
    esac
    [ "$COMP_CWORD" -gt 1 ] || options="meter show make schedule selftest help --help --version"
    case $before in
    *[\<\>]*) ;; # the name of a file, which readline completes by default
    = | --*) compopt +o default ;; # a value, which is the user's own
    *) mapfile -t COMPREPLY < <(compgen -W "$options" -- "$word") ;;
    esac
}

complete -o default -F _romtyalig romtyalig
