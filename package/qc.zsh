#compdef qc
# Completion of qc for zsh: its commands as qc --help lists them, the names of files, -q ahead of a command, and
# --nodes and --from of plan and free and --runs, --seed and --by of odds.

_qc() {
    local first=2
    [[ $words[2] != -q || $CURRENT -eq 2 ]] || first=3
    if (( CURRENT == first )); then
        local -a commands about
        commands=(${(f)"$(command qc --help 2>/dev/null | sed -n '/^qc [a-z]* [A-Z]/{s/^qc \([a-z]*\) .*/\1/;N;s/\n */:/;p;}')"})
        about=('--help:what the program does, and its commands' '--version:which program this is')
        (( first == 3 )) || about+=('-q:say nothing on standard error')
        _describe command commands -- about
        return
    fi
    local name=$words[first]
    shift $(( first - 1 )) words
    (( CURRENT -= first - 1 ))
    case $name in
        plan|free)
            _arguments '--nodes=[at most so many branchings]:N:(0 1000 20000 1000000)' \
                '--from=[a plan to begin with]:OWN:_files' '--help[what the command does]' '*:file:_files'
            ;;
        odds)
            _arguments '--runs=[so many runs]:N:(100 1000 10000)' '--seed=[what the draws begin with]:S:' \
                '--by=[tells the chance of this tick too]:T:' '--help[what the command does]' '*:file:_files'
            ;;
        make) _arguments '--help[what the command does]' ;;
        *) _arguments '--help[what the command does]' '*:file:_files' ;;
    esac
}

_qc "$@"
