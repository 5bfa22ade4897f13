# Completions of the tool mdb for bash: commands, their options and values, and files.
_mdb() {
    local commands='run share make audit judge fleet proxy help version' word=${COMP_WORDS[COMP_CWORD]} before=${COMP_WORDS[COMP_CWORD - 1]} words=
    if ((COMP_CWORD == 1)); then
        words="$commands --help --version"
    else
        case "${COMP_WORDS[1]} $before" in
            'help help') words=$commands ;;
            'share share') words='1 2 3 4 5 6 7 8' ;;
            'judge --cmap') words='2020 2021' ;;
            help\ * | version\ * | make\ *) ;;
            judge\ *) words='--cmap --help' ;;
            *) words='--help' ;;
        esac
        case "${COMP_WORDS[1]} $before $word" in
            help\ * | version\ * | make\ * | 'share share '* | 'judge --cmap '*) ;;
            *\ -*) ;;
            *) words='' && compopt -o default ;;
        esac
    fi
    mapfile -t COMPREPLY < <(compgen -W "$words" -- "$word")
}
complete -F _mdb mdb
