"""The texts for bash, zsh and fish.

In each the words before the one that is typed are gone through: they lead to a command and a place of its words, and
an option that takes a value takes the next one.
"""

from __future__ import annotations

import re
from collections.abc import Callable

from .commands import Command, Value, all_commands

_MADE = "# Completion of the words of programs and commands in {}. Made by scripts/completion: changes belong there.\n"


def all_texts() -> dict[str, str]:
    """The texts by the shells' names."""
    commands = list(all_commands())
    return {"bash": bash(commands), "zsh": zsh(commands), "fish": fish(commands)}


def _names(commands: list[Command]) -> str:
    return " ".join(command.path for command in commands if " " not in command.path)


def _quoted(text: str) -> str:
    """A text between single quotes."""
    return "'" + text.replace("'", "'\\''") + "'"


def _cases(rows: dict[str, list[str]], line: Callable[[str], str]) -> str:
    """The branches of a `case`: each text with all that lead to it."""
    return "".join(
        f"        {' | '.join(map(_quoted, found))})\n            {line(text)} ;;\n" for text, found in rows.items()
    )


def _turned(pairs: dict[str, str]) -> dict[str, list[str]]:
    """The keys of each value."""
    rows: dict[str, list[str]] = {}
    for key, value in pairs.items():
        rows.setdefault(value, []).append(key)
    return rows


def _values(commands: list[Command]) -> dict[str, str]:
    """What an option takes, by the command and the option's name."""
    return {
        f"{command.path} {name}": str(option.value)
        for command in commands
        for option in command.options
        for name in option.names
        if option.value is not None
    }


def _places(commands: list[Command]) -> dict[str, str]:
    """What may stand in a place, by the command and the place; `+` behind a number stands for all from there on."""
    found = {}
    for command in commands:
        if command.commands:
            found[f"{command.path}:1"] = str(Value(tuple(command.commands)))
        for number, value in enumerate(command.places, 1):
            last = "+" if command.goes_on and number == len(command.places) else ""
            if str(value) != "words":
                found[f"{command.path}:{number}{last}"] = str(value)
    return found


# ---- bash

_BASH = r"""
# Files that end with .dlx, and folders on the way to them; where there are none of these, any file.
_dlx_problem() {
    compopt -o filenames
    mapfile -t COMPREPLY < <(compgen -f -X '!*.dlx' -- "$1"; compgen -d -- "$1")
    [[ ${COMPREPLY[*]} ]] || mapfile -t COMPREPLY < <(compgen -f -- "$1")
}

# Completes a word as what it may be: words, behind `file` those or a file, `problem` or `folder`.
_dlx_complete() {
    case $1 in
        problem) _dlx_problem "$2" ;;
        folder) compopt -o filenames; mapfile -t COMPREPLY < <(compgen -d -- "$2") ;;
        file) compopt -o default ;;
        file*) compopt -o filenames; mapfile -t COMPREPLY < <(compgen -W "${1#* }" -- "$2"; compgen -f -- "$2") ;;
        words*) mapfile -t COMPREPLY < <(compgen -W "${1#words}" -- "$2") ;;
    esac
}

_dlx() {
    local word=$2 path=${COMP_WORDS[0]##*/} place=1 at given value options
    COMPREPLY=()
    case $3 in
        '<') _dlx_complete problem "$word"; return ;;
        *[\<\>]) compopt -o default; return ;;
    esac
    for ((at = 1; at < COMP_CWORD; at++)); do
        given=${COMP_WORDS[at]}
        if [[ $given == *[\<\>] ]]; then
            ((at++))
        elif _dlx_value "$path $given"; then
            [[ ${COMP_WORDS[at + 1]} == = ]] && ((at++))
            if ((++at >= COMP_CWORD)); then
                _dlx_complete "$value" "${word#=}"
                return
            fi
        elif [[ $given != -?* ]]; then
            if _dlx_options "$path $given"; then
                path+=" $given" place=1
            else
                ((place++))
            fi
        fi
    done
    _dlx_place "$path" "$place"
    if [[ $word == -* || -z $value ]]; then
        _dlx_options "$path"
        value="words $options"
    fi
    _dlx_complete "$value" "$word"
}
"""


def bash(commands: list[Command]) -> str:
    options = {
        command.path: " ".join(name for option in command.options for name in option.names if name.startswith("--"))
        for command in commands
    }
    return (
        _MADE.format("bash, 4.3 or later, which needs nothing else")
        + _BASH
        + "\n# The options of a command, which is none where there is no such command.\n"
        + "_dlx_options() {\n    options=\n    case $1 in\n"
        + _cases(_turned(options), lambda text: f"options={_quoted(text)}")
        + "        *) return 1 ;;\n    esac\n}\n"
        + "\n# What an option of a command takes.\n"
        + "_dlx_value() {\n    value=\n    case $1 in\n"
        + _cases(_turned(_values(commands)), lambda text: f"value={_quoted(text)}")
        + "        *) return 1 ;;\n    esac\n}\n"
        + _place_function(commands, "_dlx_place")
        + f"\ncomplete -F _dlx {_names(commands)}\n"
    )


def _place_function(commands: list[Command], name: str) -> str:
    """What may stand in a place of a command's words, for bash and zsh."""
    rows = []
    for text, keys in _turned(_places(commands)).items():
        # Where a place goes on, any number does.
        patterns = [re.sub(r"[0-9]+\+'\Z", "'*", _quoted(key)) for key in keys]
        rows.append(f"        {' | '.join(patterns)})\n            value={_quoted(text)} ;;\n")
    # What goes on stands last, since it has the numbers before it, too.
    rows.sort(key=lambda row: ":'*" in row)
    return (
        "\n# What may stand in a place of a command's words.\n"
        + f"{name}() {{\n    value=\n    case $1:$2 in\n"
        + "".join(rows)
        + "    esac\n}\n"
    )


# ---- zsh

_ZSH = r"""
# Completes a word as what it may be: words, behind `file` those or a file, `problem` or `folder`.
_helgrothy_complete() {
    case $1 in
        problem) _files -g '*.dlx' ;;
        folder) _files -/ ;;
        file*) (( ${#${=1}} > 1 )) && compadd -- ${${=1}[2,-1]}; _files ;;
        'words '*) compadd -- ${${=1}[2,-1]} ;;
        *) return 1 ;;
    esac
}

_helgrothy() {
    local path_=${words[1]:t} value given
    local -a options commands
    local -i place=1 at
    for ((at = 2; at < CURRENT; at++)); do
        given=${words[at]}
        if _helgrothy_value "$path_ $given"; then
            if ((++at >= CURRENT)); then
                _helgrothy_complete "$value"
                return
            fi
        elif [[ $given != -?* ]]; then
            if _helgrothy_options "$path_ $given"; then
                path_+=" $given" place=1
            else
                ((place++))
            fi
        fi
    done
    _helgrothy_options "$path_"
    _helgrothy_place "$path_" "$place"
    if [[ $PREFIX == -* ]]; then
        if [[ $PREFIX == --*=* ]] && _helgrothy_value "$path_ ${PREFIX%%=*}"; then
            compset -P '*='
            _helgrothy_complete "$value"
            return
        fi
        _describe -o option options
    elif ((place == 1 && $#commands)); then
        _describe command commands
    else
        _helgrothy_complete "$value" || _describe -o option options
    fi
}
"""


def zsh(commands: list[Command]) -> str:
    cases = ""
    for command in commands:
        options = " ".join(
            _quoted(f"{name}:{option.help}")
            for option in command.options
            for name in option.names
            if name.startswith("--")
        )
        names = " ".join(_quoted(f"{name}:{told}") for name, told in command.commands.items())
        cases += f"        {_quoted(command.path)})\n            options=({options})\n"
        cases += f"            commands=({names}) ;;\n"
    return (
        f"#compdef {_names(commands)}\n"
        + _MADE.format("zsh")
        + _ZSH
        + "\n# The options and commands of a command, if there is such a one.\n"
        + "_helgrothy_options() {\n    case $1 in\n"
        + cases
        + "        *) return 1 ;;\n    esac\n}\n"
        + "\n# What an option of a command takes.\n"
        + "_helgrothy_value() {\n    value=\n    case $1 in\n"
        + _cases(_turned(_values(commands)), lambda text: f"value={_quoted(text)}")
        + "        *) return 1 ;;\n    esac\n}\n"
        + _place_function(commands, "_helgrothy_place")
        + '\n_helgrothy "$@"\n'
    )


# ---- fish

_FISH = r"""
# Each command finds this file by a name of its own, and one reading is enough for all of them.
set -q __helgrothy_commands; and return

# Whether the words before the one that is typed lead to a command and, where one is given, to a place of its words.
function __helgrothy_is -a command place
    set -l words (commandline -opc)
    set -l path (string replace -r '.*/' '' -- $words[1])
    set -l at 1
    set -l is_value 0
    for given in $words[2..-1]
        if test $is_value = 1
            set is_value 0
        else if contains -- "$path $given" $__helgrothy_valued
            set is_value 1
        else if string match -q -- '-?*' $given
            continue
        else if contains -- "$path $given" $__helgrothy_commands
            set path "$path $given"
            set at 1
        else
            set at (math $at + 1)
        end
    end
    test "$path" = "$command"; or return 1
    switch "$place"
        case ''
            return 0
        case '*+'
            test $at -ge (string trim -c + -- $place)
        case '*'
            test $at = $place
    end
end
"""


def fish(commands: list[Command]) -> str:
    lines = []
    for command in commands:
        program = command.path.split()[0]
        for option in command.options:
            flags = "".join(f" {'-l' if name.startswith('--') else '-s'} {name.lstrip('-')}" for name in option.names)
            lines.append(_fish(program, f"__helgrothy_is {_quoted(command.path)}", flags, option.value, option.help))
        for name, told in command.commands.items():
            is_here = f"__helgrothy_is {_quoted(command.path)} 1"
            lines.append(_fish(program, is_here, f" -a {name}", None, told))
    for key, spec in _places(commands).items():
        path, _, place = key.rpartition(":")
        command = next(command for command in commands if command.path == path)
        if command.commands:
            continue
        value = command.places[int(place.rstrip("+")) - 1]
        lines.append(_fish(path.split()[0], f"__helgrothy_is {_quoted(path)} {place}", "", value, ""))
    valued = "".join(f" \\\n    {_quoted(key)}" for key in _values(commands))
    paths = "".join(f" \\\n    {_quoted(command.path)}" for command in commands)
    return (
        _MADE.format("fish")
        + _FISH
        + f"\nset -g __helgrothy_commands{paths}\n"
        + f"\nset -g __helgrothy_valued{valued}\n\n"
        + "".join(f"complete -c {name} -f\n" for name in _names(commands).split())
        + "".join(f"{line}\n" for line in lines)
    )


def _fish(program: str, condition: str, what: str, value: Value | None, told: str) -> str:
    line = f"complete -c {program} -n {_fish_quoted(condition)}{what}"
    if value is not None:
        # -r takes a value, of which -f says that it is no file, and -F that it may be one.
        is_option = bool(what)
        files = {"problem": "(__fish_complete_suffix .dlx)", "folder": "(__fish_complete_directories)"}.get(value.files)
        words = " ".join([*value.words, *([files] if files else [])])
        line += (" -r" if is_option else "") + (" -F" if value.files == "file" else " -f")
        line += f" -a {_fish_quoted(words)}" if words else ""
    return line + (f" -d {_fish_quoted(told)}" if told else "")


def _fish_quoted(text: str) -> str:
    return "'" + text.replace("\\", "\\\\").replace("'", "\\'") + "'"
