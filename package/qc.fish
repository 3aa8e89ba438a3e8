# Completion of qc for fish: its commands as qc --help lists them, the names of files, -q ahead of a command, and
# --nodes and --from of plan and free and --runs, --seed and --by of odds.

# The words behind qc and -q, without the one that is typed.
function __qc_words
    set -l words (commandline -opc)
    set -e words[1]
    if test "$words[1]" = -q
        set -e words[1]
    end
    string join \n -- $words
end

# Whether the word that is typed is the command.
function __qc_wants_command
    set -l words (__qc_words)
    test (count $words) -eq 0
end

# Whether the command is this one.
function __qc_is
    set -l words (__qc_words)
    test (count $words) -gt 0; and test "$words[1]" = "$argv[1]"
end

# The commands, each with what it does.
function __qc_commands
    command qc --help 2>/dev/null |
        sed -n '/^qc [a-z]* [A-Z]/{s/^qc \([a-z]*\) .*/\1/;N;s/\n */\t/;p;}'
end

complete -c qc -n __qc_wants_command -f -a '(__qc_commands)'
complete -c qc -n __qc_wants_command -f -l version -d 'which program this is'
complete -c qc -n '__qc_wants_command; and test (count (commandline -opc)) -eq 1' -f -s q -d 'say nothing on standard error'
complete -c qc -f -l help -d 'what the program or a command does'
complete -c qc -n '__qc_is make' -f
complete -c qc -n '__qc_is plan; or __qc_is free' -l nodes -x -a '0 1000 20000 1000000' -d 'at most so many branchings'
complete -c qc -n '__qc_is plan; or __qc_is free' -l from -r -F -d 'a plan to begin with'
complete -c qc -n '__qc_is odds' -l runs -x -a '100 1000 10000' -d 'so many runs'
complete -c qc -n '__qc_is odds' -l seed -x -d 'what the draws begin with'
complete -c qc -n '__qc_is odds' -l by -x -d 'tells the chance of this tick too'
