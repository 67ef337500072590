"""Writes the completions of bash, zsh and fish, from what the program says of itself.

What a value completes with is said by its name: `kinds` gives each name that is known its words,
among which `files` and `commands` stand for those. Where a command has words of its own for a name,
`kinds` has them under both. A value of any other name, which has no choices of its own, completes
with nothing.
"""
import dataclasses

HEAD = "Completions of roundc for {shell}, made by .ci/manual from what `roundc help` says."


def quoted(text):
    """Returns a text as one word of bash and zsh."""
    return "'" + text.replace("'", "'\\''") + "'"


def key(command):
    return " ".join(command.path)


def words_of(kind, choices, kinds):
    """Returns what a value of a name completes with, apart from files, and whether with files."""
    words = choices or kinds.get(kind, [])
    return [it for it in words if it not in ("files", "commands")], "files" in words


def own_kinds(command, kinds):
    """Returns the words of each name, as a command has them."""
    if not command.path:
        return kinds
    own = {name.removeprefix(f"{command.name} "): words for name, words in kinds.items()
           if name.startswith(f"{command.name} ")}
    return {**kinds, **own}


def takes_commands(argument, kinds):
    return "commands" in kinds.get(argument.value, [])


def moved(command, path):
    """Returns a command with those below it as they stand behind other words."""
    path = [*path, command.name]
    return dataclasses.replace(
        command, path=path, commands=[moved(it, path) for it in command.commands])


def spread(program, kinds):
    """Returns the program with each command that takes the words of another one, as if it had
    commands of its own; but `help` takes their names alone."""
    commands = []
    for command in program.commands:
        if command.name != "help" and any(takes_commands(it, kinds) for it in command.arguments):
            below = [moved(it, command.path)
                     for it in program.commands if it.name not in (command.name, "help")]
            command = dataclasses.replace(command, arguments=[], commands=below)
        commands.append(command)
    return dataclasses.replace(program, commands=commands)


def names_of(command):
    return [it.name for it in command.commands]


def siblings(program, command):
    """Returns the commands beside a command, which its argument may name."""
    return next(it for it in program.all() if command in it.commands).commands


# --- bash

BASH = """\
# The words of the line up to the one that is written. What bash has split at `:`, `=` and `@` is
# one word if no blank stands between.
_roundc_words() {
    local rest=$COMP_LINE word
    words=()
    for word in "${COMP_WORDS[@]:0:COMP_CWORD+1}"; do
        if [[ ${#words[@]} == 0 || $rest == [[:blank:]]* ]]; then
            words+=("")
            rest=${rest#"${rest%%[![:blank:]]*}"}
        fi
        words[${#words[@]}-1]+=$word
        rest=${rest#"$word"}
    done
}

# Finds which command the line has, which option waits for its value, and how many arguments came.
_roundc_place() {
    local word
    for word in "${words[@]:1:${#words[@]}-2}"; do
        if [[ -n $option ]]; then
            option=
        elif [[ $word == -* ]]; then
            if _roundc_takes_value "$command $word"; then
                option=$word
            fi
        elif _roundc_has_command "$command" "$word"; then
            command="${command:+$command }$word"
        else
            place=$((place + 1))
        fi
    done
}

_roundc() {
    local words command= option= place=1 current start= choices= options= files= found
    COMPREPLY=()
    _roundc_words
    _roundc_place
    current=${words[${#words[@]}-1]}
    if [[ -z $option && $current == --*=* ]]; then
        option=${current%%=*} start=${current%%=*}=
    fi
    if [[ -n $option ]]; then
        _roundc_choices "$command $option"
    elif [[ $current == -* ]]; then
        _roundc_options "$command"
    else
        _roundc_choices "$command $place"
    fi
    while IFS= read -r found; do
        COMPREPLY+=("$start$found")
    done < <(compgen -W "$choices $options" -- "${current#"$start"}")
    if [[ ${#COMPREPLY[@]} == 1 && ${COMPREPLY[0]} == *[:=] ]]; then
        compopt -o nospace 2>/dev/null
    fi
    # (a word that begins with `@` is no file's name)
    if [[ -n $files && $current != @* ]]; then
        compopt -o filenames -o default 2>/dev/null
        while IFS= read -r found; do
            COMPREPLY+=("$start$found")
        done < <(compgen -f -- "${current#"$start"}")
    fi
    # Readline puts in what stands behind the last place at which it has split the word.
    start=${current%"$2"}
    COMPREPLY=("${COMPREPLY[@]#"$start"}")
}

complete -F _roundc roundc
"""


def bash_cases(name, rows):
    """Returns a function that does what the row of its first word says; rows that say the same
    are one."""
    merged = {}
    for word, deed in rows:
        merged.setdefault(deed, []).append(quoted(word))
    lines = [f"{name}() {{", "    case $1 in"]
    for deed, words in merged.items():
        lines += [f"        {it} |" + " \\" for it in words[:-1]]
        lines += [f"        {words[-1]}) {deed} ;;"]
    return "\n".join([*lines, "        *) return 1 ;;", "    esac", "}"])


def bash_deed(value, program, command, kinds):
    """Returns what sets a value's choices."""
    words, has_files = words_of(value.value, value.choices, own_kinds(command, kinds))
    if takes_commands(value, kinds):
        words = [*words, *(it.name for it in siblings(program, command) if it is not command)]
    deeds = [f"choices={quoted(' '.join(words))}"] if words else []
    return " ".join([*deeds, *(["files=yes"] if has_files else [])])


def bash(program, kinds):
    choices, options, valued, commands = [], [], [], []
    for command in program.all():
        options.append((key(command), "options=" + quoted(
            " ".join(name for it in command.options for name in it.names))))
        valued += [(f"{key(command)} {name}", "return 0")
                   for it in command.options if it.value for name in it.names]
        commands += [(key(it), "return 0") for it in command.commands]
        if command.commands:
            choices.append((f"{key(command)} 1", f"choices={quoted(' '.join(names_of(command)))}"))
        values = [(name, it) for it in command.options if it.value for name in it.names]
        values += [(at + 1, it) for at, it in enumerate(command.arguments)]
        for place, value in values:
            deed = bash_deed(value, program, command, kinds)
            if deed:
                choices.append((f"{key(command)} {place}", deed))
    is_command = bash_cases("_roundc_is_command", commands)
    return "\n\n".join([
        "# " + HEAD.format(shell="bash"),
        "# What a value completes with: that of an option, or of the argument at a place.\n"
        + bash_cases("_roundc_choices", choices),
        bash_cases("_roundc_options", options),
        bash_cases("_roundc_takes_value", valued),
        is_command,
        "_roundc_has_command() { _roundc_is_command \"${1:+$1 }$2\"; }",
        BASH,
    ])


# --- zsh


def zsh_text(text):
    """Returns a text as it stands in a specification of `_arguments`."""
    for letter in "\\[]:":
        text = text.replace(letter, "\\" + letter)
    return text


def zsh_function(command):
    return "_".join(["_roundc", *command.path])


def zsh_action(value, kinds):
    """Returns what completes a value: words, files, both, or nothing."""
    words, has_files = words_of(value.value, value.choices, kinds)
    if words and has_files:
        return f"_roundc_{value.value.lower()}"
    if words:
        return f"({' '.join(zsh_text(it) for it in words)})"
    return "_files" if has_files else " "


def zsh_option(option, kinds):
    told = f"[{zsh_text(option.help)}]"
    names = option.names if len(option.names) == 1 else [f"({' '.join(option.names)})"]
    value = ""
    if option.value:
        value = f":{zsh_text(option.value)}:{zsh_action(option, kinds)}"
    if len(names) == len(option.names):
        sign = "=" if option.value and option.long.startswith("--") else ""
        return [quoted(option.long + sign + told + value)]
    sign = "=" if option.value else ""
    return [quoted(names[0]) + "{" + ",".join(it + (sign if it.startswith("--") else "")
                                              for it in option.names) + "}" + quoted(told + value)]


def zsh_arguments(program, command, kinds):
    kinds = own_kinds(command, kinds)
    specs = [it for option in command.options for it in zsh_option(option, kinds)]
    for at, argument in enumerate(command.arguments):
        place = "*" if argument.is_many and not takes_commands(argument, kinds) else str(at + 1)
        action = zsh_action(argument, kinds)
        if takes_commands(argument, kinds):
            names = [it.name for it in siblings(program, command) if it is not command]
            action = f"({' '.join(names)})"
        specs.append(quoted(f"{place}:{zsh_text(argument.value)}:{action}"))
    return specs


def zsh_command(program, command, kinds):
    """Returns the function that completes a command behind its name."""
    name, specs = zsh_function(command), zsh_arguments(program, command, kinds)
    lines = [f"{name}() {{"]
    if not command.commands:
        return "\n".join([*lines, " \\\n".join(["    _arguments -s -S",
                          *(f"        {it}" for it in specs)]), "}"])
    lines += ["    local state line", "    local -a commands=("]
    lines += [f"        {quoted(it.name + ':' + it.about)}" for it in command.commands]
    lines += ["    )", " \\\n".join(["    _arguments -s -S -C", *(f"        {it}" for it in specs),
              "        '1: :->command'", "        '*:: :->rest'"])]
    lines += ["    case $state in", "        command) _describe -t commands command commands ;;",
              "        rest)", "            case $line[1] in"]
    lines += [f"                {it.name}) {zsh_function(it)} ;;" for it in command.commands]
    return "\n".join([*lines, "            esac", "            ;;", "    esac", "}"])


def zsh_value(value, kinds):
    """Returns the function that completes a value with words and files."""
    words, _ = words_of(value, [], kinds)
    said = " ".join(quoted(it) for it in words)
    return "\n".join([
        f"_roundc_{value.lower()}() {{",
        "    local expl",
        f"    _wanted words expl 'word' compadd -S '' -- {said}",
        # (a word that begins with `@` is no file's name)
        "    [[ $PREFIX == @* ]] || _files",
        "}",
    ])


def zsh(program, kinds):
    mixed = [it for it in kinds if all(words_of(it, [], kinds))]
    return "\n\n".join([
        "#compdef roundc\n# " + HEAD.format(shell="zsh"),
        *(zsh_value(it, kinds) for it in mixed),
        *(zsh_command(program, it, kinds) for it in reversed([*program.all()])),
        '_roundc "$@"\n',
    ])


# --- fish

FISH = """\
# The words of the line behind `roundc`, without options and their values.
function __roundc_words
    set -l is_value no
    for word in (commandline -opc)[2..-1]
        if test $is_value = yes
            set is_value no
        else if contains -- $word $__roundc_valued
            set is_value yes
        else if not string match -q -- '-*' $word
            echo $word
        end
    end
end

# Whether the line has a command, and behind it this many arguments if a number is given.
function __roundc_at -a command count
    set -l words (__roundc_words)
    for name in (string split -n ' ' -- $command)
        test "$words[1]" = $name; or return 1
        set -e words[1]
    end
    test -z "$count"; or test (count $words) = $count
end

complete -c roundc -f
"""


def fish_quoted(text):
    return "'" + text.replace("\\", "\\\\").replace("'", "\\'") + "'"


def fish_value(value, program, command, kinds):
    """Returns the words of `complete` that say what a value completes with."""
    words, has_files = words_of(value.value, value.choices, own_kinds(command, kinds))
    if takes_commands(value, kinds):
        words = [*words, *(it.name for it in siblings(program, command) if it is not command)]
    found = ["-F"] if has_files else ["-x"]
    return found + (["-a", fish_quoted(" ".join(words))] if words else [])


def fish_command(program, command, kinds):
    lines = []

    def line(place, *words):
        at = f"__roundc_at {fish_quoted(key(command))}{place}"
        lines.append(" ".join(["complete -c roundc -n", f'"{at}"', *words]))

    for it in command.commands:
        line(" 0", "-a", it.name, "-d", fish_quoted(it.about))
    for option in command.options:
        names = [f"-l {it[2:]}" if it.startswith("--") else f"-s {it[1:]}" for it in option.names]
        value = ["-r", *fish_value(option, program, command, kinds)] if option.value else []
        line(" 0" if command.commands else "", *names, *value, "-d", fish_quoted(option.help))
    for at, argument in enumerate(command.arguments):
        words = fish_value(argument, program, command, kinds)
        if words != ["-x"]:
            line(f" {at}", *(it for it in words if it != "-x"))
    return "\n".join(lines)


def fish(program, kinds):
    valued = sorted({name for it in program.all() for option in it.options if option.value
                     for name in option.names})
    return "\n\n".join([
        "# " + HEAD.format(shell="fish"),
        "# The options that take a value.\nset -g __roundc_valued " + " ".join(valued),
        FISH.rstrip("\n"),
        *(fish_command(program, it, kinds) for it in program.all()),
    ]) + "\n"


def made(program, kinds):
    """Returns the texts of the completions, by their names."""
    program = spread(program, kinds)
    return {
        "completions/roundc.bash": bash(program, kinds),
        "completions/_roundc": zsh(program, kinds),
        "completions/roundc.fish": fish(program, kinds),
    }
