# SPDX-License-Identifier: Apache-2.0
"""What words mean: numbers, colorants' names, and words of several parts."""
import re

from .refusals import usage

MOST_PLATES = 16
NAME = re.compile(r"(?:(?![()<>\[\]{}/%])[!-~]){1,64}")


class NoCommand(Exception):
    """The words mean no command."""


def run_command(program, commands, words, outside):
    """Runs a program of several commands: the first word names one, which reads the others."""
    try:
        if not words or words[0] not in commands:
            raise NoCommand()
        command = commands[words[0]](words[1:])
    except NoCommand:
        raise usage(program)
    command(outside)


def number(word, least, greatest):
    """One to ten ASCII digits without a sign, in range."""
    if not re.fullmatch("[0-9]{1,10}", word) or not least <= int(word) <= greatest:
        raise NoCommand()
    return int(word)


def parts(word, count):
    """A word of exactly so many parts with colons between, none of them empty."""
    found = word.split(":")
    if len(found) != count or "" in found:
        raise NoCommand()
    return found


def many(words, count):
    """1 to 16 words of so many parts: for each part the list of what stands there."""
    if not 1 <= len(words) <= MOST_PLATES:
        raise NoCommand()
    return [list(column) for column in zip(*(parts(word, count) for word in words))]


def judge_names(names):
    """Each is a colorant's name, and none stands twice."""
    if not all(NAME.fullmatch(name) for name in names):
        raise NoCommand()
    judge_distinct(names)


def judge_distinct(names):
    if len(set(names)) != len(names):
        raise NoCommand()


def named_plates(words, report):
    """Words NAME:IN:OUT: the names, the inputs and the outputs. No file may be written twice."""
    names, inputs, outputs = many(words, 3)
    judge_names(names)
    judge_distinct(outputs + [report])
    return names, inputs, outputs
