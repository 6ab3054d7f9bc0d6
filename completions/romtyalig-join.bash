# Completion of romtyalig-join's words for bash: `join`, then its options and names of files.

_romtyalig_join() {
    local word=${COMP_WORDS[COMP_CWORD]} before=${COMP_WORDS[COMP_CWORD - 1]} options=
    COMPREPLY=()
    case $COMP_CWORD,$word in
    1,*) options="join help --help --version" ;;
    *,-*) options="--active --idle --part --parts --size --help" ;;
    esac
    case $before in
    *[\<\>]*) ;; # the name of a file, which readline completes by default
    = | --*) compopt +o default ;; # a value, which is the user's own
    *) mapfile -t COMPREPLY < <(compgen -W "$options" -- "$word") ;;
    esac
}

complete -o default -o filenames -F _romtyalig_join romtyalig-join
