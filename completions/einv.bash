# Completion of einv's commands, options and files, for bash: source this file, or put it into
# /usr/share/bash-completion/completions under the name einv.

_einv() {
    local word="${COMP_WORDS[COMP_CWORD]}" before="${COMP_WORDS[COMP_CWORD - 1]}" command="${COMP_WORDS[1]:-}" options=
    if [ "$COMP_CWORD" -eq 1 ]; then
        mapfile -t COMPREPLY < <(compgen -W 'validate show totals view check convert extract query outline try --help --version' -- "$word")
        return
    fi
    case "$before" in
        --to)
            mapfile -t COMPREPLY < <(compgen -W 'ubl cii' -- "$word")
            return
            ;;
        --phase)
            mapfile -t COMPREPLY < <(compgen -W '#ALL #DEFAULT' -- "$word")
            return
            ;;
    esac
    case "$command" in
        validate) options='--svrl --json --codes --extension' ;;
        show) options='--json --codes --extension' ;;
        totals) options='--json --codes --extension' ;;
        view) options='--codes --extension' ;;
        check) options='--svrl --json --phase --rules' ;;
        convert) options='--to --whole --codes --extension' ;;
    esac
    case "$word" in
        -*) mapfile -t COMPREPLY < <(compgen -W "$options" -- "$word") ;;
        *) mapfile -t COMPREPLY < <(compgen -f -- "$word") ;;
    esac
}

complete -o filenames -F _einv einv
