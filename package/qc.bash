# Completion of qc for bash: its commands as qc --help lists them, the names of files, -q ahead of a command, and
# --nodes and --from of plan and free and --runs, --seed and --by of odds.

_qc() {
    local word=${COMP_WORDS[COMP_CWORD]} before=${COMP_WORDS[COMP_CWORD - 1]}
    COMPREPLY=()
    local first=1
    [ "${COMP_WORDS[1]}" != -q ] || [ "$COMP_CWORD" -eq 1 ] || first=2
    if [ "$COMP_CWORD" -eq "$first" ]; then
        local words
        words=$(command qc --help 2>/dev/null | sed -n 's/^qc \([a-z]*\) [A-Z].*/\1/p')' --help --version'
        [ "$first" -eq 2 ] || words="$words -q"
        mapfile -t COMPREPLY < <(compgen -W "$words" -- "$word")
        return
    fi
    # behind an equals sign the option is the word before it
    if [ "$before" = = ]; then
        before=${COMP_WORDS[COMP_CWORD - 2]}
    fi
    case ${COMP_WORDS[first]}:$before:$word in
        make:*) return ;;
        plan:--from:= | free:--from:=) word= ;;
        plan:--from:* | free:--from:*) ;;
        plan:--nodes:= | plan:--nodes:* | free:--nodes:= | free:--nodes:*)
            mapfile -t COMPREPLY < <(compgen -W '0 1000 20000 1000000' -- "${word#=}")
            return
            ;;
        odds:--seed:* | odds:--by:*) return ;;
        odds:--runs:*)
            mapfile -t COMPREPLY < <(compgen -W '100 1000 10000' -- "${word#=}")
            return
            ;;
        odds:*:-*)
            mapfile -t COMPREPLY < <(compgen -W '--runs --seed --by --help' -- "$word")
            return
            ;;
        plan:*:-* | free:*:-*)
            mapfile -t COMPREPLY < <(compgen -W '--nodes --from --help' -- "$word")
            return
            ;;
        *:-*)
            mapfile -t COMPREPLY < <(compgen -W '--help' -- "$word")
            return
            ;;
    esac
    compopt -o filenames 2>/dev/null
    mapfile -t COMPREPLY < <(compgen -f -- "$word")
}

complete -F _qc qc
