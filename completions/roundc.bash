# Completions of roundc for bash, made by .ci/manual from what `roundc help` says.

# What a value completes with: that of an option, or of the argument at a place.
_roundc_choices() {
    case $1 in
        ' 1') choices='check show run draw threads judge lockstep realise rounds explore together help why test' ;;
        'check --format' | \
        'judge --format' | \
        'explore --format' | \
        'why check --format' | \
        'why judge --format' | \
        'why explore --format') choices='text json' ;;
        'check 1' | \
        'show 1' | \
        'run 1' | \
        'draw 1' | \
        'threads 1' | \
        'judge 1' | \
        'lockstep 1' | \
        'realise 1' | \
        'rounds 1' | \
        'explore 1' | \
        'why check 1' | \
        'why show 1' | \
        'why run 1' | \
        'why draw 1' | \
        'why threads 1' | \
        'why judge 1' | \
        'why lockstep 1' | \
        'why realise 1' | \
        'why rounds 1' | \
        'why explore 1') choices='@gather: @count_votes: @dls1:' files=yes ;;
        'run --schedule' | \
        'draw --schedule' | \
        'threads --setup' | \
        'threads --trace' | \
        'judge --schedule' | \
        'lockstep --header' | \
        'lockstep --omissions' | \
        'realise --header' | \
        'realise --omissions' | \
        'rounds --header' | \
        'rounds --omissions' | \
        'explore --header' | \
        'explore --trace' | \
        'together 1' | \
        'why run --schedule' | \
        'why draw --schedule' | \
        'why threads --setup' | \
        'why threads --trace' | \
        'why judge --schedule' | \
        'why lockstep --header' | \
        'why lockstep --omissions' | \
        'why realise --header' | \
        'why realise --omissions' | \
        'why rounds --header' | \
        'why rounds --omissions' | \
        'why explore --header' | \
        'why explore --trace' | \
        'why together 1' | \
        'why test 1' | \
        'test 1') files=yes ;;
        'run --format' | \
        'rounds --format' | \
        'why run --format' | \
        'why rounds --format') choices='text json table summary omissions' ;;
        'run --by' | \
        'rounds --by' | \
        'why run --by' | \
        'why rounds --by') choices='round node' ;;
        'explore --inputs' | \
        'why explore --inputs') choices='header any' ;;
        'explore --faults' | \
        'why explore --faults') choices='none omission crash' ;;
        'explore --check' | \
        'why explore --check') choices='agreement validity final termination' ;;
        'help 1') choices='check show run draw threads judge lockstep realise rounds explore together why test' ;;
        'why 1') choices='check show run draw threads judge lockstep realise rounds explore together test' ;;
        'why test --format' | \
        'test --format') choices='text json junit' ;;
        *) return 1 ;;
    esac
}

_roundc_options() {
    case $1 in
        '' | \
        'show' | \
        'together' | \
        'why show' | \
        'why together') options='-h --help -V --version' ;;
        'check' | \
        'why check') options='--format -h --help -V --version' ;;
        'run' | \
        'why run') options='--schedule --decided --format --by --vars --changed -h --help -V --version' ;;
        'draw' | \
        'why draw') options='--schedule --rounds --nodes --grid --html -h --help -V --version' ;;
        'threads' | \
        'why threads') options='--setup --trace --decided -h --help -V --version' ;;
        'judge' | \
        'why judge') options='--schedule --correct --delta --gst --format -h --help -V --version' ;;
        'lockstep' | \
        'why lockstep') options='--header --correct --delta --gst --delays --orders --ticks --stop --omissions --delay -h --help -V --version' ;;
        'realise' | \
        'why realise') options='--header --omissions -h --help -V --version' ;;
        'rounds' | \
        'why rounds') options='--header --omissions --decided --format --by --vars --changed -h --help -V --version' ;;
        'explore' | \
        'why explore') options='--header --inputs --faults --clear --hears --part --jobs --sample --seed --check --always --trace --format --brief -h --help -V --version' ;;
        'help' | \
        'why') options='' ;;
        'why test' | \
        'test') options='--update --format -h --help' ;;
        *) return 1 ;;
    esac
}

_roundc_takes_value() {
    case $1 in
        'check --format' | \
        'run --schedule' | \
        'run --format' | \
        'run --by' | \
        'run --vars' | \
        'draw --schedule' | \
        'draw --rounds' | \
        'draw --nodes' | \
        'threads --setup' | \
        'threads --trace' | \
        'judge --schedule' | \
        'judge --correct' | \
        'judge --delta' | \
        'judge --gst' | \
        'judge --format' | \
        'lockstep --header' | \
        'lockstep --correct' | \
        'lockstep --delta' | \
        'lockstep --gst' | \
        'lockstep --delays' | \
        'lockstep --orders' | \
        'lockstep --ticks' | \
        'lockstep --stop' | \
        'lockstep --omissions' | \
        'lockstep --delay' | \
        'realise --header' | \
        'realise --omissions' | \
        'rounds --header' | \
        'rounds --omissions' | \
        'rounds --format' | \
        'rounds --by' | \
        'rounds --vars' | \
        'explore --header' | \
        'explore --inputs' | \
        'explore --faults' | \
        'explore --clear' | \
        'explore --hears' | \
        'explore --part' | \
        'explore --jobs' | \
        'explore --sample' | \
        'explore --seed' | \
        'explore --check' | \
        'explore --always' | \
        'explore --trace' | \
        'explore --format' | \
        'why check --format' | \
        'why run --schedule' | \
        'why run --format' | \
        'why run --by' | \
        'why run --vars' | \
        'why draw --schedule' | \
        'why draw --rounds' | \
        'why draw --nodes' | \
        'why threads --setup' | \
        'why threads --trace' | \
        'why judge --schedule' | \
        'why judge --correct' | \
        'why judge --delta' | \
        'why judge --gst' | \
        'why judge --format' | \
        'why lockstep --header' | \
        'why lockstep --correct' | \
        'why lockstep --delta' | \
        'why lockstep --gst' | \
        'why lockstep --delays' | \
        'why lockstep --orders' | \
        'why lockstep --ticks' | \
        'why lockstep --stop' | \
        'why lockstep --omissions' | \
        'why lockstep --delay' | \
        'why realise --header' | \
        'why realise --omissions' | \
        'why rounds --header' | \
        'why rounds --omissions' | \
        'why rounds --format' | \
        'why rounds --by' | \
        'why rounds --vars' | \
        'why explore --header' | \
        'why explore --inputs' | \
        'why explore --faults' | \
        'why explore --clear' | \
        'why explore --hears' | \
        'why explore --part' | \
        'why explore --jobs' | \
        'why explore --sample' | \
        'why explore --seed' | \
        'why explore --check' | \
        'why explore --always' | \
        'why explore --trace' | \
        'why explore --format' | \
        'why test --format' | \
        'test --format') return 0 ;;
        *) return 1 ;;
    esac
}

_roundc_is_command() {
    case $1 in
        'check' | \
        'show' | \
        'run' | \
        'draw' | \
        'threads' | \
        'judge' | \
        'lockstep' | \
        'realise' | \
        'rounds' | \
        'explore' | \
        'together' | \
        'help' | \
        'why' | \
        'test' | \
        'why check' | \
        'why show' | \
        'why run' | \
        'why draw' | \
        'why threads' | \
        'why judge' | \
        'why lockstep' | \
        'why realise' | \
        'why rounds' | \
        'why explore' | \
        'why together' | \
        'why test') return 0 ;;
        *) return 1 ;;
    esac
}

_roundc_has_command() { _roundc_is_command "${1:+$1 }$2"; }

# The words of the line up to the one that is written. What bash has split at `:`, `=` and `@` is
# one word if no blank stands between.
_roundc_words() {
    local rest=$COMP_LINE word
    words=()
    for word in "${COMP_WORDS[@]:0:COMP_CWORD+1}"; do
        if [[ ${#words[@]} == 0 || $rest == [[:blank:]]* ]]; then
            words+=("")
            rest=${rest#"${rest%%[![:blank:]]*}"}
        fi
        words[${#words[@]}-1]+=$word
        rest=${rest#"$word"}
    done
}

# Finds which command the line has, which option waits for its value, and how many arguments came.
_roundc_place() {
    local word
    for word in "${words[@]:1:${#words[@]}-2}"; do
        if [[ -n $option ]]; then
            option=
        elif [[ $word == -* ]]; then
            if _roundc_takes_value "$command $word"; then
                option=$word
            fi
        elif _roundc_has_command "$command" "$word"; then
            command="${command:+$command }$word"
        else
            place=$((place + 1))
        fi
    done
}

_roundc() {
    local words command= option= place=1 current start= choices= options= files= found
    COMPREPLY=()
    _roundc_words
    _roundc_place
    current=${words[${#words[@]}-1]}
    if [[ -z $option && $current == --*=* ]]; then
        option=${current%%=*} start=${current%%=*}=
    fi
    if [[ -n $option ]]; then
        _roundc_choices "$command $option"
    elif [[ $current == -* ]]; then
        _roundc_options "$command"
    else
        _roundc_choices "$command $place"
    fi
    while IFS= read -r found; do
        COMPREPLY+=("$start$found")
    done < <(compgen -W "$choices $options" -- "${current#"$start"}")
    if [[ ${#COMPREPLY[@]} == 1 && ${COMPREPLY[0]} == *[:=] ]]; then
        compopt -o nospace 2>/dev/null
    fi
    # (a word that begins with `@` is no file's name)
    if [[ -n $files && $current != @* ]]; then
        compopt -o filenames -o default 2>/dev/null
        while IFS= read -r found; do
            COMPREPLY+=("$start$found")
        done < <(compgen -f -- "${current#"$start"}")
    fi
    # Readline puts in what stands behind the last place at which it has split the word.
    start=${current%"$2"}
    COMPREPLY=("${COMPREPLY[@]#"$start"}")
}

complete -F _roundc roundc
