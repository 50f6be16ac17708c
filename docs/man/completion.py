"""Writes the bash completion of a program from what its help tells."""
from __future__ import annotations

import textwrap

from reading import Entry, Help, Program

WIDTH = 110

# The words that goals begin with or have behind them; cases/run.sh compares them with those that the program names.
GOAL_WORDS = ("all any up ever never and crashed idle settled stuck instance round phase received decided delivered count table waiting waits "
              "heard acked estimate may refuses suspects follows chooses concludes")
# What stands behind these options, which their help tells in words.
KINDS = {"--goal": "goal", "--until": "goal", "--only": "consensus"}
GOAL = """\
    goal)
        mapfile -t COMPREPLY < <(compgen -W '@WORDS@' -- "$2")
        ;;
"""

HEAD = """\
# Completion of @NAME@ in bash: its subcommands, their options, and words and files where they are wanted.
# docs/man/make.py writes this file from what @NAME@ --help prints.

# What follows each subcommand, and with an empty word what follows the program: its options, those that take values
# with what each value is, and its operands. `command` is a subcommand, `file` a file, `goal` a word of a goal, `a|b` one
# of these words, `any` what isn't known; with + behind it any number of words.
_@NAME@_words() {
    case $1 in
"""

TAIL = """\
    *)
        options='' values='' operands=''
        ;;
    esac
}

# Leaves in `wanted` what the values of the option are.
_@NAME@_wants() {
    local value
    wanted=()
    for value in $values; do
        [[ $value != "$1="* ]] || IFS=, read -ra wanted <<<"${value#*=}"
    done
}

# Answers for a word of this kind.
_@NAME@_answer() {
    case $1 in
    command)
        mapfile -t COMPREPLY < <(compgen -W "$commands" -- "$2")
        ;;
    file)
        compopt -o filenames -o bashdefault -o default 2>/dev/null
        mapfile -t COMPREPLY < <(compgen -f -- "$2")
        ;;
@GOAL@    any) ;;
    *)
        mapfile -t COMPREPLY < <(compgen -W "${1//|/ }" -- "$2")
        ;;
    esac
}

# Goes through the words before the one that is completed, to know what is wanted there.
_@NAME@() {
    local commands options values operands wanted=() left command='' plain='' at before kind
    local word=${COMP_WORDS[COMP_CWORD]}
    COMPREPLY=()
    _@NAME@_words ''
    read -ra left <<<"$operands"
    for ((at = 1; at < COMP_CWORD; at++)); do
        before=${COMP_WORDS[at]}
        if [[ $before == '=' ]]; then
            continue
        elif [[ $before == [\\<\\>]* ]]; then
            wanted=(file "${wanted[@]}")
        elif [[ ! $plain && $before == -- ]]; then
            plain=yes wanted=()
        elif [[ ! $plain && $before == -?* ]]; then
            _@NAME@_wants "$before"
        elif [[ ${#wanted[@]} -gt 0 ]]; then
            [[ ${wanted[0]} == *+ ]] || wanted=("${wanted[@]:1}")
        elif [[ ! $command ]]; then
            command=$before
            _@NAME@_words "$command"
            read -ra left <<<"$operands"
        elif [[ ${left[0]-} != *+ ]]; then
            left=("${left[@]:1}")
        fi
    done
    [[ $word != [\\<\\>]* ]] || wanted=(file)
    [[ $word != [=\\<\\>]* ]] || word=''
    kind=${wanted[0]-${left[0]-}}
    if [[ ! $plain && ( $word == -* || ! $kind ) ]]; then
        kind=${options// /|}
    fi
    _@NAME@_answer "${kind%+}" "$word"
}

complete -F _@NAME@ @NAME@
"""


def kind_of(entry: Entry) -> str:
    """What is wanted for the operand, or for each value of the option."""
    if entry.choices:
        return "|".join(entry.choices)
    if entry.operand == "COMMAND":
        return "command"
    return "file" if entry.names_file else "any"


def values_of(option: Entry) -> list[str]:
    """For each name of the option what its values are."""
    kind = KINDS.get(option.flags[0]) or kind_of(option)
    kinds = ",".join(value if "|" in value else kind for value in option.values) + ("+" if option.is_repeated else "")
    return [f"{flag}={kinds}" for flag in option.flags] if option.values else []


def operands_of(help_text: Help) -> list[str]:
    """What each operand is; a subcommand's own subcommands are the first."""
    kinds = [kind_of(operand) + ("+" if operand.is_repeated else "") for operand in help_text.operands]
    names = "|".join(command.term for command in help_text.commands)
    return [names, *kinds] if names else kinds


def assigned(variable: str, words: list[str]) -> list[str]:
    """The lines of bash that give the variable these words, with spaces between them."""
    rows = textwrap.wrap(" ".join(words), WIDTH, break_long_words=False, break_on_hyphens=False) or [""]
    return [f"{variable}='{rows[0]}'"] + [f"{variable}+=' {row}'" for row in rows[1:]]


def case_of(name: str, variables: dict[str, list[str]]) -> str:
    """What follows the subcommand, as a case of bash."""
    lines = [line for variable, words in variables.items() for line in assigned(variable, words)]
    return "".join([f"    {name})\n", *(f"        {line}\n" for line in lines), "        ;;\n"])


def words_of(help_text: Help) -> dict[str, list[str]]:
    """What follows a subcommand."""
    options = help_text.all_options
    return {
        "options": [flag for option in options for flag in option.flags],
        "values": [value for option in options for value in values_of(option)],
        "operands": operands_of(help_text),
    }


def completion(program: Program) -> str:
    """The completion."""
    commands = [subcommand.name for subcommand in program.subcommands]
    cases = [case_of("''", {"commands": commands, **words_of(program.help), "operands": ["command"]})]
    cases += [case_of(subcommand.name, words_of(subcommand)) for subcommand in program.subcommands]
    goal = GOAL.replace("@WORDS@", textwrap.fill(GOAL_WORDS, WIDTH, subsequent_indent=" " * 12)) if "=goal" in "".join(cases) else ""
    return (HEAD + "".join(cases) + TAIL).replace("@NAME@", program.name).replace("@GOAL@", goal)
