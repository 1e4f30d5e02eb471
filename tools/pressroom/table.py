"""Completion for bash, zsh and fish, and man pages, from one table: the commands and their arguments.

package/table.py prints them for the package.
"""
import argparse
import re
import sys
from dataclasses import dataclass

from pressroom.front import COMMANDS, parser_of


@dataclass(frozen=True)
class Option:
    """An option: its names, its text, the placeholder of its value, and the values it accepts, if they are few."""

    names: tuple[str, ...]
    text: str
    value: str
    choices: tuple[str, ...]


def options_of(command: str) -> list[Option]:
    """Returns the options of a command."""
    found = []
    for action in parser_of(command)._actions:
        if not action.option_strings:
            continue
        takes = action.nargs != 0
        value = str(action.metavar or action.dest.upper()) if takes else ""
        choices = tuple(map(str, action.choices or ()))
        found.append(Option(tuple(action.option_strings), text_of(action), value, choices))
    return found


def text_of(action: argparse.Action) -> str:
    """Returns the help of an argument, without what depends on the machine."""
    return re.sub(r" \([^()]* here\)", "", " ".join((action.help or "").split()))


def quoted(text: str) -> str:
    """Returns a text in single quotes, as all three shells read it."""
    return "'" + text.replace("\\", "").replace("'", "’") + "'"


def bash() -> str:
    """Returns the completion of bash: commands, options, and the values of an option that has few."""
    cases, values = [], []
    for name in COMMANDS:
        options = options_of(name)
        names = " ".join(one for option in options for one in option.names if one.startswith("--"))
        cases.append(f"        {name}) options='{names}' ;;")
        for option in options:
            if option.choices:
                values.append(f"        '{name} {option.names[-1]}') values='{' '.join(option.choices)}' ;;")
    return f"""# bash completion of pressroom                                        -*- shell-script -*-

_pressroom()
{{
    local cur prev words cword options= values=
    _init_completion || return

    if ((cword == 1)); then
        if [[ $cur == -* ]]; then
            COMPREPLY=($(compgen -W '--help --version' -- "$cur"))
        else
            COMPREPLY=($(compgen -W '{" ".join(COMMANDS)} help' -- "$cur"))
        fi
        return
    fi
    if [[ ${{words[1]}} == help ]]; then
        COMPREPLY=($(compgen -W '{" ".join(COMMANDS)}' -- "$cur"))
        return
    fi
    case ${{words[1]}} in
{chr(10).join(cases)}
    esac
    case "${{words[1]}} $prev" in
{chr(10).join(values)}
    esac
    if [[ -n $values ]]; then
        COMPREPLY=($(compgen -W "$values" -- "$cur"))
    elif [[ $cur == -* ]]; then
        COMPREPLY=($(compgen -W "$options" -- "$cur"))
    else
        _filedir
    fi
}} &&
    complete -F _pressroom pressroom
"""


def zsh() -> str:
    """Returns the completion of zsh."""
    cases = []
    for name in COMMANDS:
        lines = [f"            {name})", "                _arguments \\"]
        for option in options_of(name):
            text = option.text.replace("[", "(").replace("]", ")").replace(":", ",")
            value = f":{option.value}:({' '.join(option.choices)})" if option.choices else ""
            value = value or (f":{option.value}:_files" if option.value else "")
            lines.append(f"                    {quoted(option.names[-1] + '[' + text + ']' + value)} \\")
        cases.append("\n".join([*lines, "                    '*:file:_files' ;;"]))
    commands = "\n".join(f"        {quoted(f'{name}:{text}')}" for name, text in COMMANDS.items())
    return f"""#compdef pressroom

_pressroom() {{
    local -a commands
    commands=(
{commands}
        'help:show the help of a command'
    )
    if (( CURRENT == 2 )); then
        _describe command commands
    elif [[ $words[2] == help ]]; then
        _describe command commands
    else
        local command=$words[2]
        shift words
        (( CURRENT-- ))
        case $command in
{chr(10).join(cases)}
        esac
    fi
}}

_pressroom "$@"
"""


def fish() -> str:
    """Returns the completion of fish."""
    lines = ["# fish completion of pressroom", f"set -l commands {' '.join(COMMANDS)}"]
    first = "complete -c pressroom -n 'not __fish_seen_subcommand_from $commands help'"
    lines += [f"{first} -f -a {name} -d {quoted(text)}" for name, text in COMMANDS.items()]
    lines.append(f"{first} -f -a help -d 'show the help of a command'")
    lines.append("complete -c pressroom -n '__fish_seen_subcommand_from help' -f -a \"$commands\"")
    for name in COMMANDS:
        seen = f"complete -c pressroom -n '__fish_seen_subcommand_from {name}'"
        for option in options_of(name):
            forms = " ".join(
                f"-l {one[2:]}" if one.startswith("--") else f"-s {one[1:]}" for one in option.names
            )
            value = f" -x -a {quoted(' '.join(option.choices))}" if option.choices else ""
            value = value or (" -r" if option.value else "")
            lines.append(f"{seen} {forms}{value} -d {quoted(option.text)}")
    return "\n".join(lines) + "\n"


def plain(text: str) -> str:
    """Returns a text with nothing that scdoc takes for a mark."""
    return re.sub(r"[\\*_`#|<>\[\]~]|^[-.;]", r"\\\g<0>", text, flags=re.MULTILINE)


def paragraph(text: str) -> str:
    """Returns one paragraph of a description: its statuses and its example have forms of their own."""
    label, _, rest = text.partition(": ")
    if label == "status":
        rows = re.findall(r"(\d+) (.*?)(?:; (?=\d)|$)", " ".join(rest.split()))
        return "# EXIT STATUS\n\n" + "".join(f"*{status}*\n\t{plain(what)}\n\n" for status, what in rows)
    if label == "example":
        return f"# EXAMPLE\n\n```\n{rest.strip()}\n```\n\n"
    if text.startswith(" "):
        return f"```\n{text}\n```\n\n"
    return plain(" ".join(text.split())) + "\n\n"


def section(command: str) -> str:
    """Returns the description, the arguments and the statuses of a command."""
    parser = parser_of(command)
    told, *more = (parser.description or "").split("\n\n")
    paragraphs = [told, *[text for text in more if not text.startswith(("example:", "status:"))]]
    last = [text for text in more if text.startswith(("example:", "status:"))]
    text = "# DESCRIPTION\n\n" + "".join(map(paragraph, paragraphs)) + "# ARGUMENTS\n\n"
    for action in parser._actions:
        names = ", ".join(action.option_strings) or str(action.metavar)
        value = (
            f" {action.metavar or '|'.join(map(str, action.choices or ()))}" if action.option_strings else ""
        )
        shown = names + (value if action.nargs != 0 else "")
        text += f"*{plain(shown)}*\n\t{plain(text_of(action))}\n\n"
    return text + "".join(map(paragraph, last))


def man(command: str, version: str) -> str:
    """Returns the source of a command's man page."""
    usage = " ".join(parser_of(command).format_usage().removeprefix("usage: ").split())
    begun = f"pressroom {command}"
    return (
        f'pressroom-{command}(1) "plateroom {version}"\n\n# NAME\n\npressroom-{command} - {COMMANDS[command]}\n\n'
        f"# SYNOPSIS\n\n*{begun}*{plain(usage.removeprefix(begun))}\n\n"
        + section(command)
        + "# SEE ALSO\n\n*pressroom*(1), *plateroom*(1), *plateroom-plan*(5)\n"
    )


def main() -> int:
    """Prints what the arguments name."""
    words = sys.argv[1:]
    shells = {"bash": bash, "zsh": zsh, "fish": fish}
    if len(words) == 1 and words[0] in shells:
        print(shells[words[0]](), end="")
    elif len(words) == 3 and words[0] == "man" and words[1] in COMMANDS:
        print(man(words[1], words[2]), end="")
    elif words == ["commands"]:
        print("\n".join(COMMANDS))
    else:
        print("usage: table.py bash|zsh|fish | man COMMAND VERSION | commands", file=sys.stderr)
        return 2
    return 0
