# SPDX-License-Identifier: Apache-2.0
"""The objects of a job: what its tokens write out."""
from collections import namedtuple

from .refusals import JobFault

DEEPEST = 16

# `at` is the offset of the first token. The value of an Array is the list of its items, that of a Dict the list of its
# entries, each a Literal and an object; of others it is what the token says.
Object = namedtuple("Object", "kind at value")

CLOSES = {"CloseDict": "Dict", "CloseArray": "Array"}
OPENS = {"OpenDict": "Dict", "OpenArray": "Array"}
CONSTANTS = {b"true": ("Boolean", True), b"false": ("Boolean", False), b"null": ("Null", None)}


class Bracket:
    """A bracket that is open: its kind, where it stands, and the objects directly within it so far."""

    def __init__(self, kind, at):
        self.kind, self.at, self.within = kind, at, []

    def wants_key(self):
        return self.kind == "Dict" and len(self.within) % 2 == 0

    def object(self):
        if self.kind == "Array":
            return Object("Array", self.at, self.within)
        return Object("Dict", self.at, list(zip(self.within[0::2], self.within[1::2])))


def objects_of(tokens):
    """The objects at the top of a job, or the first token after which no tokens could complete them."""
    top, brackets = [], []
    for token in tokens:
        judge(token, brackets)
        if token.kind in OPENS:
            brackets.append(Bracket(OPENS[token.kind], token.at))
            continue
        made = brackets.pop().object() if token.kind in CLOSES else plain_object(token)
        (brackets[-1].within if brackets else top).append(made)
    if brackets:
        raise JobFault("Unclosed", brackets[-1].at)
    return top


def judge(token, brackets):
    """The fault of a token at its place, in the order in which faults are told."""
    innermost = brackets[-1] if brackets else None
    closes = CLOSES.get(token.kind)
    if closes and (innermost is None or innermost.kind != closes):
        raise JobFault("Unmatched", token.at)
    if closes == "Dict" and not innermost.wants_key():
        raise JobFault("OddDictionary", token.at)
    if innermost and innermost.wants_key() and not closes and token.kind != "Literal":
        raise JobFault("KeyNotName", token.at)
    if innermost and token.kind == "Word" and token.value not in CONSTANTS:
        raise JobFault("NameInside", token.at)
    if token.kind in OPENS and len(brackets) == DEEPEST:
        raise JobFault("TooDeep", token.at)


def plain_object(token):
    """The object of one token."""
    if token.kind == "Word":
        kind, value = CONSTANTS.get(token.value, ("Operator", token.value))
        return Object(kind, token.at, value)
    return Object(token.kind, token.at, token.value)


def last_entries(dictionary):
    """The entries that hold, in the order of their keys' offsets: of each name the last, as pairs of name and value."""
    holding = {key.value: (key, value) for key, value in dictionary.value}
    return [(key.value, value) for key, value in sorted(holding.values(), key=lambda entry: entry[0].at)]
