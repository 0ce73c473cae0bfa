"""Writes what completes the words of opprove in a shell: completions SHELL

For bash: `source <(opprove completions bash)`; for zsh a file _opprove in a folder of fpath, before compinit; for fish a file
opprove.fish in ~/.config/fish/completions. A package installs them.
"""
from __future__ import annotations

import re
from typing import Callable, Dict, Iterator, List, Tuple

from opprove.cli import TOOLS
from opprove.help import OF_THE_SCRIPT, page
from opprove.tool import ended, parser
from opprove.words.calls import COMMANDS, LIMITS, SAID_OF

ENDINGS = ("op", "opn", "cert", "report")  # of files that are offered
VALUES = {"--format": "1 2"}
BY_WORDS = {"completions": ("bash", "zsh", "fish")}  # tools whose operands are words


def options(word: str) -> List[Tuple[str, str]]:
    """The options of a command or a tool, and what each is for as far as it is known."""
    if word in COMMANDS:
        command = COMMANDS[word]
        return [*((name, SAID_OF[name]) for name in command.options + command.flags), *LIMITS.items()]
    found = re.findall(r"(?<![\w-])--[a-z][a-z-]*", page(word))
    return [(name, "") for name in dict.fromkeys(found) if name != "--help"]


def all_words() -> List[Tuple[str, str]]:
    """Each first word with its summary."""
    commands = [(name, command.summary) for name, command in COMMANDS.items()]
    return [*commands, *OF_THE_SCRIPT[:1], *((tool.word, tool.summary) for tool in TOOLS)]


def bash() -> Iterator[str]:
    words = [word for word, _ in all_words()]
    yield "# Completion of the words of opprove for bash. Written by: opprove completions bash"
    yield from (
        "_opprove() {",
        "  local current=${COMP_WORDS[COMP_CWORD]} previous=${COMP_WORDS[COMP_CWORD - 1]} options=--help",
        f'  local words="{" ".join(words)}"',
        "  COMPREPLY=()",
        "  if ((COMP_CWORD == 1)); then",
        '    mapfile -t COMPREPLY < <(compgen -W "$words --help --version" -- "$current")',
        "    return",
        "  fi",
        "  case ${COMP_WORDS[1]} in",
        '    help) mapfile -t COMPREPLY < <(compgen -W "$words" -- "$current") && return ;;',
    )
    for word, values in BY_WORDS.items():
        yield f'    {word}) mapfile -t COMPREPLY < <(compgen -W "{" ".join(values)}" -- "$current") && return ;;'
    for word in words:
        names = [name for name, _ in options(word)] if word not in ("help", "build", *BY_WORDS) else []
        if names:
            yield f'    {word}) options="{" ".join(names)} --help" ;;'
    numbers = [name for name in (*SAID_OF, *LIMITS) if name not in VALUES and name != "--no-models"]
    yield from (
        "  esac",
        "  case $previous in",
        *(f'    {name}) mapfile -t COMPREPLY < <(compgen -W "{values}" -- "$current") && return ;;' for name, values in VALUES.items()),
        f"    {' | '.join(numbers)}) return ;;",
        "  esac",
        "  if [[ $current == -* ]]; then",
        '    mapfile -t COMPREPLY < <(compgen -W "$options" -- "$current")',
        "  else",
        "    compopt -o filenames 2>/dev/null",
        f'    mapfile -t COMPREPLY < <(compgen -f -X "!*.@({"|".join(ENDINGS)})" -- "$current"; compgen -d -- "$current")',
        "  fi",
        "}",
        "shopt -s extglob",
        "complete -F _opprove opprove ./opprove",
    )


def quoted(text: str) -> str:
    """A text in the quotes of zsh and fish."""
    return "'" + text.replace("\\", "").replace("'", "").replace("`", "") + "'"


def zsh() -> Iterator[str]:
    yield from ("#compdef opprove", "# Completion of the words of opprove for zsh. Written by: opprove completions zsh", "_opprove() {")
    yield "  local -a words_of_opprove=("
    for word, summary in all_words():
        yield f"    {quoted(word.replace(':', '') + ':' + summary.replace(':', ','))}"
    yield from ("  )", "  if ((CURRENT == 2)); then", "    _describe 'command or tool' words_of_opprove", "    return", "  fi")
    yield from ("  local word=$words[2]", "  shift words", "  ((CURRENT--))", "  case $word in")
    yield "    help) _describe 'command or tool' words_of_opprove ;;"
    for word, values in BY_WORDS.items():
        yield f"    {word}) _values 'shell' {' '.join(values)} ;;"
    files = f"'*:file:_files -g \"*.({'|'.join(ENDINGS)})\"'"
    for word, _ in all_words():
        found = options(word) if word not in ("help", "build", *BY_WORDS) else []
        if found:
            said = {name: text.replace("[", "(").replace("]", ")") or name[2:] for name, text in found}
            texts = [quoted(f"{name}[{text}]{zsh_value(word, name)}") for name, text in said.items()]
            yield f"    {word}) _arguments {' '.join(texts)} {files} ;;"
    yield from (f"    *) _arguments {files} ;;", "  esac", "}", '_opprove "$@"')


def zsh_value(word: str, name: str) -> str:
    if name in VALUES:
        return f":value:({VALUES[name]})"
    return ":number:" if word in COMMANDS and name != "--no-models" else ""


def fish() -> Iterator[str]:
    yield from ("# Completion of the words of opprove for fish. Written by: opprove completions fish", "complete -c opprove -f")
    for word, summary in all_words():
        yield f"complete -c opprove -n __fish_use_subcommand -a {word} -d {quoted(summary)}"
    others = " ".join(["help", *BY_WORDS])
    for ending in ENDINGS:
        where = f"not __fish_use_subcommand; and not __fish_seen_subcommand_from {others}"
        yield f"complete -c opprove -n '{where}' -a '(__fish_complete_suffix .{ending})'"
    yield f"complete -c opprove -n '__fish_seen_subcommand_from help' -a '{' '.join(word for word, _ in all_words())}'"
    for word, values in BY_WORDS.items():
        yield f"complete -c opprove -n '__fish_seen_subcommand_from {word}' -a '{' '.join(values)}'"
    for word, _ in all_words():
        for name, said in options(word) if word not in ("help", "build", *BY_WORDS) else []:
            value = f" -x -a '{VALUES[name]}'" if name in VALUES else " -x" if word in COMMANDS and name != "--no-models" else ""
            about = f" -d {quoted(said)}" if said else ""
            yield f"complete -c opprove -n '__fish_seen_subcommand_from {word}' -l {name[2:]}{value}{about}"


SHELLS: Dict[str, Callable[[], Iterator[str]]] = {"bash": bash, "zsh": zsh, "fish": fish}


def main(words: List[str]) -> int:
    """Writes the file for the shell that is named."""
    made = parser("completions", __doc__)
    made.add_argument("shell", metavar="SHELL", choices=[*SHELLS], help="bash, zsh or fish")
    return ended(SHELLS[made.parse_args(words).shell])
