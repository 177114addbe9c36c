# Completion for mc2, mc2-steps, mc2-view and mc2-why, and for ./mc2 and view/view: commands, options, and the names of files.
_mc2_words() {
    local word=${COMP_WORDS[COMP_CWORD]} before=${COMP_WORDS[COMP_CWORD - 1]} command=${COMP_WORDS[1]-}
    local name=${COMP_WORDS[0]##*/} commands='' options=''
    case $name in
        mc2-steps | mc2-why) command=$name ;;
        mc2-view | view) commands='steps timeline trace schedule --help --version' ;;
        *) commands='run sim report audit merge upgrade' ;;
    esac
    case $command in
        run | sim) options='--settings' ;;
        steps) options='--page --settings --help' ;;
        schedule) options='--settings --seed --rounds --help' ;;
        timeline) options='--svg --judge --said --around --help' ;;
        trace) options='--judge --said --help' ;;
        mc2-steps) options='--settings --help --version' ;;
        mc2-why) options='--as --settings --program --whole --help --version' ;;
    esac
    COMPREPLY=()
    if [ "$COMP_CWORD" = 1 ] && [ -n "$commands" ]; then
        mapfile -t COMPREPLY < <(compgen -W "$commands" -- "$word")
    elif [[ $before == --as ]]; then
        mapfile -t COMPREPLY < <(compgen -W 'settings scripts schedule record' -- "$word")
    elif [[ $before == --seed || $before == --around ]]; then
        return
    elif [[ $before != --settings && $before != --said && $before != --judge && $before != --program && $word == -* ]]; then
        mapfile -t COMPREPLY < <(compgen -W "$options" -- "$word")
    else
        compopt -o filenames 2> /dev/null
        mapfile -t COMPREPLY < <(compgen -f -- "$word")
    fi
}
complete -F _mc2_words mc2 mc2-steps mc2-view mc2-why ./mc2 view/view ./view/view
