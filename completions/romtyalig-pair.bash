# Completion of romtyalig-pair's words for bash: `pair`, then its options; after < and > names of files.

_romtyalig_pair() {
    local word=${COMP_WORDS[COMP_CWORD]} before=${COMP_WORDS[COMP_CWORD - 1]} options=
    COMPREPLY=()
    case $COMP_CWORD in
    1) options="pair help --help --version" ;;
    *) options="--idle --size --help" ;;
    esac
    case $before in
    *[\<\>]*) ;; # the name of a file, which readline completes by default
    = | --*) compopt +o default ;; # a value, which is the user's own
    *) mapfile -t COMPREPLY < <(compgen -W "$options" -- "$word") ;;
    esac
}

complete -o default -F _romtyalig_pair romtyalig-pair
