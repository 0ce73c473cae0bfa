"""Lists the commands and the tools with a line each, or shows the page of one"""
from __future__ import annotations

import contextlib
import io
import sys
import textwrap
from importlib import import_module
from typing import Iterable, List, Tuple

from opprove.cli import BY_WORD, TOOLS, unknown
from opprove.tool import ended, parser
from opprove.words.calls import ALL_STATUSES, COMMANDS, LIMITS, OPTIONS, SAID_OF, form

WIDTH = 100
OF_THE_SCRIPT = (
    ("build", "proves and builds the program, in a checkout"),
    ("version", "the version, and which program answers"),
)


def main(words: List[str]) -> int:
    """Writes the list, or the page of the command or tool that is named."""
    made = parser("help", __doc__)
    made.add_argument("word", metavar="WORD", nargs="?", help="the command or the tool whose page is wanted")
    word = made.parse_args(words).word
    if word and word not in COMMANDS and word not in BY_WORD:
        sys.stderr.write(f"opprove: {unknown(word)}\n")
        return 2
    return ended(lambda: (page(word) if word else listed()).rstrip("\n").split("\n"))


def page(word: str) -> str:
    """The page of a command or of a tool: what it shows for --help, or its usage and what its module says."""
    if word in COMMANDS:
        return command_page(word)
    module = import_module(f"opprove.{BY_WORD[word].module}")
    shown, said = (io.TextIOWrapper(io.BytesIO(), encoding="utf-8", write_through=True) for _ in range(2))
    with contextlib.redirect_stdout(shown), contextlib.redirect_stderr(said), contextlib.suppress(SystemExit):
        module.main(["--help"])
    texts = [text.buffer.getvalue().decode().strip() for text in (shown, said)]  # type: ignore[attr-defined]
    return f"{texts[0]}\n" if texts[0] else f"{texts[1].lstrip('# ')}\n\n{(module.__doc__ or '').strip()}\n"


def command_page(word: str) -> str:
    command = COMMANDS[word]
    options: List[Tuple[str, str]] = []
    for name in command.options:
        least, most = OPTIONS[name]
        options.append((f"{name} N", f"{SAID_OF[name]}; {least:,} to {most:,}" if most < 2**63 else f"{SAID_OF[name]}; 0 to 2^64 - 1"))
    options += [(name, SAID_OF[name]) for name in command.flags] + [(f"{name} N", said) for name, said in LIMITS.items()]
    statuses = [(str(number), said) for number, said in sorted(command.statuses + ALL_STATUSES)]
    call = textwrap.fill(form(word), WIDTH, subsequent_indent="    ", break_on_hyphens=False)
    parts = [f"opprove {word}: {command.summary}", call, textwrap.fill(command.about, WIDTH), table(options), "Status\n" + table(statuses)]
    return "\n\n".join(parts) + "\n"


def table(rows: Iterable[Tuple[str, str]]) -> str:
    """Two columns."""
    found = list(rows)
    wide = max(len(name) for name, _ in found) + 4
    lines = [textwrap.wrap(said, WIDTH - wide) for _, said in found]
    return "\n".join(f"  {name:{wide - 2}}" + f"\n{'':{wide}}".join(said) for (name, _), said in zip(found, lines))


def listed() -> str:
    """A line for each command and each tool."""
    commands = table([(name, command.summary) for name, command in COMMANDS.items()])
    tools = table([*OF_THE_SCRIPT, *((tool.word, tool.summary) for tool in TOOLS if tool.word != "version")])
    return f"The program, which is proved:\n{commands}\n\nTools around it:\n{tools}\n\nopprove help WORD shows the page of one.\n"
