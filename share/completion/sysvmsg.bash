# Completes the command lines of sysvmsg(1), sysvmsg-run(1), sysvmsg-work(1) and sysvmsg-serve(8) in bash. Other words, as
# PATH, complete to file names.

# The options of a server with which sysvmsg-serve can be called too.
_sysvmsg_server="--mode --replace --as --no-main --blocks --workers --at-once --sessions --idle --stall --drain --hold --stats"

_sysvmsg_commands="serve snd rcv ipcs ipcrm ipcmk save load stats script"

# Prints the options of a command, or the commands if the word is not a command.
_sysvmsg_words() {
    local credentials="--stderr --me --uid --gid --pid"
    case $1 in
    save) echo "--key --type --upto --except --nosync --wait --me --uid --gid --pid --help --version" ;;
    load) echo "--from --into --adopt --nowait --wait --me --uid --gid --pid --help --version" ;;
    stats) echo "--json --wait --stderr --help --version" ;;
    script) echo "--help --version" ;;
    serve) echo "$_sysvmsg_server --until-eof --alone --help --version" ;;
    ipcs) echo "-i --json --wait $credentials --help --version" ;;
    ipcmk) echo "--mode --qbytes --wait $credentials --help --version" ;;
    ipcrm) echo "-q -Q --all --wait $credentials --help --version" ;;
    snd) echo "--stdin --lines --json --progress --type --nowait --wait $credentials --help --version" ;;
    rcv)
        echo "--type --upto --except --size --nowait --noerror --wait --count --ahead --follow --purge --hold --show-type --raw --create --mode"
        echo "--zero --json $credentials --help --version"
        ;;
    help) echo "$_sysvmsg_commands" ;;
    *) echo "$_sysvmsg_commands help --help --version" ;;
    esac
}

# Prints the place of -- among the words before the one to complete, or nothing.
_sysvmsg_dashes() {
    local place
    for ((place = 1; place < COMP_CWORD; place++)); do
        [ "${COMP_WORDS[place]}" != -- ] || { echo "$place" && return; }
    done
}

_sysvmsg() {
    local word=${COMP_WORDS[COMP_CWORD]} command=""
    [ "$COMP_CWORD" -gt 1 ] && command=${COMP_WORDS[1]}
    COMPREPLY=()
    # After -- a word is never an option.
    [ -z "$(_sysvmsg_dashes)" ] || return 0
    if [ -z "$command" ] || [ "$command $COMP_CWORD" = "help 2" ] || [[ $word == -* ]]; then
        mapfile -t COMPREPLY < <(compgen -W "$(_sysvmsg_words "$command")" -- "$word")
    fi
}

# The second word is a program, and those after it are the program's own.
_sysvmsg_run() {
    COMPREPLY=()
    [ "$COMP_CWORD" -ne 2 ] || mapfile -t COMPREPLY < <(compgen -c -- "${COMP_WORDS[2]}")
}

# The word after -- is a program.
_sysvmsg_serve() {
    local word=${COMP_WORDS[COMP_CWORD]} dashes
    COMPREPLY=()
    dashes=$(_sysvmsg_dashes)
    if [ -n "$dashes" ]; then
        [ "$COMP_CWORD" -ne $((dashes + 1)) ] || mapfile -t COMPREPLY < <(compgen -c -- "$word")
    elif [[ $word == -* ]]; then
        case $COMP_CWORD in
        1) mapfile -t COMPREPLY < <(compgen -W "--with --help --version" -- "$word") ;;
        *) mapfile -t COMPREPLY < <(compgen -W "$_sysvmsg_server --users --run --state" -- "$word") ;;
        esac
    fi
}

# The word after -- is a program.
_sysvmsg_work() {
    local word=${COMP_WORDS[COMP_CWORD]} dashes
    local options="--jobs --type --upto --seconds --pause --failed --until-empty --create --retry"
    COMPREPLY=()
    dashes=$(_sysvmsg_dashes)
    if [ -n "$dashes" ]; then
        [ "$COMP_CWORD" -ne $((dashes + 1)) ] || mapfile -t COMPREPLY < <(compgen -c -- "$word")
    elif [[ $word == -* ]]; then
        [ "$COMP_CWORD" -ne 1 ] || options="$options --help --version"
        mapfile -t COMPREPLY < <(compgen -W "$options" -- "$word")
    fi
}

complete -o default -F _sysvmsg sysvmsg
complete -o default -F _sysvmsg_run sysvmsg-run
complete -o default -F _sysvmsg_serve sysvmsg-serve
complete -o default -F _sysvmsg_work sysvmsg-work
