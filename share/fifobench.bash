# Completions of fifobench for bash. Source this file, or put it into the folder of bash-completion under the name fifobench.

# Gives the words of the first argument that begin as the second does.
_fifobench_words() {
    mapfile -t COMPREPLY < <(compgen -W "$1" -- "$2")
}

_fifobench() {
    local word=$2 before=$3 command=${COMP_WORDS[1]} value=
    local queues='proved proved-two-lock proved-lock-free proved-ring locked two-lock array seg lifo doubling inventing shy losing'
    COMPREPLY=()
    # Behind < and > stands a file, which bash itself completes; elsewhere none does.
    case $before in
        *[\<\>]) return ;;
    esac
    compopt +o default 2>/dev/null
    # Where = parts words, --queue=NAME is three of them.
    if [ "$before" = = ] && [ "$COMP_CWORD" -ge 2 ]; then
        before=${COMP_WORDS[COMP_CWORD - 2]} value=1
    elif [ "${COMP_WORDS[COMP_CWORD]}" = = ]; then
        value=1
    fi
    if [ "$COMP_CWORD" -eq 1 ]; then
        _fifobench_words 'check shrink verify draw convert complete stats sim stress help -h --help -V --version' "$word"
        return
    fi
    case $command in
        help)
            if [ "$COMP_CWORD" -eq 2 ]; then
                _fifobench_words 'check shrink verify draw convert complete stats sim stress help' "$word"
            fi
            ;;
        check | shrink)
            _fifobench_words '--local --weak-empty -q --quiet -h --help' "$word"
            ;;
        sim)
            _fifobench_words '-q --quiet -h --help' "$word"
            ;;
        verify)
            _fifobench_words '--local --weak-empty -h --help' "$word"
            ;;
        convert)
            _fifobench_words '-h --help' "$word"
            ;;
        stats)
            _fifobench_words '--overtakes -h --help' "$word"
            ;;
        complete)
            _fifobench_words '--cut -h --help' "$word"
            ;;
        draw)
            [ "$before" = --around ] || _fifobench_words '--text --html --around --all --local --weak-empty -h --help' "$word"
            ;;
        stress)
            case $before in
                --queue) _fifobench_words "$queues" "$word" ;;
                --threads | --ops | --seed | --percent | --producers | --ring | --initial) ;;
                *)
                    if [[ $word == --queue=* ]]; then
                        _fifobench_words "--queue=${queues// / --queue=}" "$word"
                    elif [ -z "$value" ]; then
                        _fifobench_words '--queue --threads --ops --seed --percent --producers --ring --initial --local --weak-empty -q --quiet -h --help' "$word"
                    fi
                    ;;
            esac
            ;;
    esac
}

complete -o bashdefault -o default -F _fifobench fifobench
