# SPDX-License-Identifier: Apache-2.0
"""The whole specification as a plain, slow program: each module stands beside the definitions that it follows.

It is written to be checked by reading, and not to be fast. Numbers of the rule are whole: parameters, densities and
coordinates in ten-thousandths, places in samples or in half-samples. Want of memory is not a part of it.
"""
import importlib

from table import NAMES

from .outside import TellFault
from .refusals import Refusal

# Each program is the call `run` of the module of its name.
PROGRAMS = {name: importlib.import_module("slow." + name).run for name in NAMES}


def run(program, words, outside):
    """The status of a program for its words. A refusal is told; where that fails, the status stays.

    A word that is not UTF-8 stands here as a text with lone surrogates, and nothing is told of it.
    """
    if not all(is_text(word) for word in words):
        return 1
    try:
        return PROGRAMS[program](words, outside) or 0
    except Refusal as refusal:
        try:
            outside.tell(refusal.line + "\n")
        except TellFault:
            pass
        return refusal.status
    except TellFault:
        return 6


def is_text(word):
    try:
        word.encode("utf-8")
    except UnicodeEncodeError:
        return False
    return True
