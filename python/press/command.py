# SPDX-License-Identifier: Apache-2.0
"""What the commands have in common: parsers whose help, manual page and completion are made of them, how a
command ends, and warnings."""
import argparse
import logging
import os
import re
import signal
import sys
import textwrap
from collections.abc import Callable, Sequence
from typing import Any, NoReturn

from .errors import STATUSES, PressError, Status, UsageError, refusal_of
from .names import clean
from .start import command_name
from .tools import STOPS, TOP

PROJECT = "trap"
HELP_WIDTH, HELP_INDENT = 112, 22
LOG = logging.getLogger("press")


def version() -> str:
    """The project's version, which is beside the folder of the commands."""
    with open(os.path.join(TOP, "VERSION"), encoding="ascii") as file:
        return file.read().strip()


class Parser(argparse.ArgumentParser):
    """The options of a command. Its text is the command's docstring: lines of usage, paragraphs, and a line
    {options} where the list of options is. Operands may be anywhere; what follows -- is an operand."""

    def __init__(self, text: str) -> None:
        super().__init__(add_help=False, allow_abbrev=False, argument_default=None)
        self.text = text.strip()
        self.add_argument("-h", "--help", action="help", help=argparse.SUPPRESS)
        self.add_argument("--version", action="version", version=f"{command_name()} ({PROJECT}) {version()}",
                          help=argparse.SUPPRESS)

    def options(self) -> list[tuple[list[str], str, str]]:
        """The options in order: of each its names, what stands for its value, and what it does."""
        return [(list(one.option_strings), str(one.metavar or ""), (one.help or "").replace("%%", "%"))
                for one in self._actions if one.help != argparse.SUPPRESS]

    def format_help(self) -> str:
        """What --help prints."""
        lines = []
        for names, value, text in self.options():
            head = "  " + ", ".join(names) + (f" {value}" if value else "")
            indent = " " * HELP_INDENT
            body = textwrap.wrap(text, HELP_WIDTH - HELP_INDENT, break_long_words=False, break_on_hyphens=False)
            lines += [f"{head:<{HELP_INDENT}}{body[0]}"] if len(head) < HELP_INDENT else [head, indent + body[0]]
            lines += [indent + line for line in body[1:]]
        return self.text.replace("{options}", "\n".join(lines)) + "\n\n" + STATUSES

    def error(self, message: str) -> NoReturn:
        """Raises a usage error with a line of ours."""
        option = re.match(r"argument (?:-\w/)?(--?[\w-]+): (.*)", message)
        if option and "expected" in option[2]:
            raise UsageError(f"{option[1]} needs a value")
        if option and "ignored explicit argument" in option[2]:
            raise UsageError(f"{option[1]} takes no value")
        raise UsageError(message)

    def words(self, options: argparse.Namespace, leave: Sequence[str] = ()) -> list[str]:
        """The options that were given as words of another command, but for those to leave."""
        words = []
        for one in self._actions:
            value, name = getattr(options, one.dest, None), one.option_strings[-1]
            if value is None or value == one.default or one.dest in leave:
                continue
            if one.nargs == 0:
                words.append(name)
            else:
                words += [f"{name}={part}" for part in (value if isinstance(value, list) else [value])]
        return words

    def read(self, words: Sequence[str]) -> argparse.Namespace:
        """The options, and the operands as `operands`."""
        options, rest = self.parse_known_args(words)
        end = rest.index("--") if "--" in rest else len(rest)
        for word in rest[:end]:
            if word.startswith("-") and word != "-":
                raise UsageError(f"unknown option {word.partition('=')[0]}")
        options.operands = rest[:end] + rest[end + 1:]
        return options


def operands(options: argparse.Namespace, *names: str) -> list[str]:
    """The operands of a command, of which there must be as many as names."""
    found: list[str] = options.operands
    if len(found) < len(names):
        raise UsageError(f"{names[len(found)]} is missing")
    if len(found) > len(names):
        raise UsageError(f"a word too many: {found[len(names)]}")
    return found


class Printer(logging.Handler):
    """Prints warnings on standard error, each once."""

    def __init__(self) -> None:
        super().__init__(logging.WARNING)
        self.printed: set[str] = set()

    def emit(self, record: logging.LogRecord) -> None:
        """Prints a warning."""
        line = record.getMessage()
        if line not in self.printed:
            self.printed.add(line)
            say(f"warning: {line}")


def say(text: str) -> None:
    """A line on standard error, with the command's name."""
    print(clean(f"{command_name()}: {text}"), file=sys.stderr, flush=True)


def stop(number: int, _: Any) -> NoReturn:
    """Ends the command. What it made is cleared away on the way out, which a second signal does not stop."""
    for one in STOPS:
        signal.signal(one, signal.SIG_IGN)
    sys.exit(128 + number)


def prepare() -> None:
    """Readies the streams, the signals and the printing of warnings."""
    for stream in (sys.stdout, sys.stderr):
        # A file's name may be no UTF-8.
        stream.reconfigure(errors="surrogateescape")  # type: ignore[attr-defined]
    for number in STOPS:
        # One that is ignored from the start, as by nohup, stays so.
        if signal.getsignal(number) != signal.SIG_IGN:
            signal.signal(number, stop)
    LOG.addHandler(Printer())
    LOG.propagate = False


def run(main: Callable[[argparse.Namespace], int], parser: Parser) -> NoReturn:
    """Calls a command's main with its options, and ends with its status."""
    run_words(lambda words: main(parser.read(words)))


def run_words(main: Callable[[Sequence[str]], int]) -> NoReturn:
    """Calls a command's main with its arguments as they are, and ends with its status."""
    prepare()
    try:
        status = main(sys.argv[1:])
    except UsageError as fault:
        say(f"{fault} (see {command_name()} --help)")
        status = Status.USAGE
    except BrokenPipeError:
        status = Status.OUTPUT
    except (PressError, OSError) as fault:
        refusal = refusal_of(fault, "write")
        say(str(refusal))
        status = refusal.status
    sys.exit(status)
