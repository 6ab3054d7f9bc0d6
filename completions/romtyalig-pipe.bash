# Completion of romtyalig-pipe's words for bash: `pipe`, then its options; after < and > names of files.

_romtyalig_pipe() {
    local word=${COMP_WORDS[COMP_CWORD]} before=${COMP_WORDS[COMP_CWORD - 1]} options=
    COMPREPLY=()
    case $COMP_CWORD in
    1) options="pipe help --help --version" ;;
    *) options="--idle --active --size --workers --sets --queue --batch --help" ;;
    esac
    case $before in
    *[\<\>]*) ;; # the name of a file, which readline completes by default
    = | --*) compopt +o default ;; # a value, which is the user's own
    *) mapfile -t COMPREPLY < <(compgen -W "$options" -- "$word") ;;
    esac
}

complete -o default -F _romtyalig_pipe romtyalig-pipe
