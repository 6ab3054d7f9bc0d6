# Completion of romtyalig-watch's words for bash: `watch`, then its options; after < and > names of files.

_romtyalig_watch() {
    local word=${COMP_WORDS[COMP_CWORD]} before=${COMP_WORDS[COMP_CWORD - 1]} options=
    COMPREPLY=()
    case $COMP_CWORD in
    1) options="watch help --help --version" ;;
    *) options="--workers --sets --asks --help" ;;
    esac
    case $before in
    *[\<\>]*) ;; # the name of a file, which readline completes by default
    = | --*) compopt +o default ;; # a value, which is the user's own
    *) mapfile -t COMPREPLY < <(compgen -W "$options" -- "$word") ;;
    esac
}

complete -o default -F _romtyalig_watch romtyalig-watch
