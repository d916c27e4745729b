# SPDX-License-Identifier: Apache-2.0
"""The kinds of errors, and the trapping parameters that an error can name."""
import enum


class Kind(enum.IntEnum):
    """The kind of an error: enum trap_kind of trap.h. Its hundreds are the status."""

    NONE = 0
    # Made of library/kinds.txt by tools/pages.
    NULL = 201
    SIZE = 202
    HANDLE = 203
    NAMES = 204
    SIDES = 205
    STEP = 206
    MAXVAL = 207
    SAMPLES = 208
    PLACE = 209
    JOB_TOO_LONG = 301
    BAD_TOKEN = 302
    NUMBER_TOO_LARGE = 303
    UNCLOSED = 304
    UNMATCHED = 305
    ODD_DICTIONARY = 306
    KEY_NOT_NAME = 307
    NAME_INSIDE = 308
    TOO_DEEP = 309
    WRONG_KIND = 310
    OUT_OF_RANGE = 311
    NOT_DICTIONARY = 312
    MISSING_KEY = 313
    WRONG_TYPE = 314
    BAD_DENSITY = 315
    BAD_KIND = 316
    BAD_RESOLUTION = 317
    UNKNOWN_OPERATOR = 318
    WRONG_OPERANDS = 319
    NO_CURRENT_POINT = 320
    COORDINATE_RANGE = 321
    TOO_MANY_VERTICES = 322
    TOO_MANY_ZONES = 323
    NO_PAGE_DEVICE = 324
    AFTER_SHOWPAGE = 325
    NO_SHOWPAGE = 326
    NO_DETAILS = 327
    SAMPLE_ABOVE_MAXVAL = 401
    TOO_MANY_SAMPLES = 404
    REACH_TOO_WIDE = 405
    FAR = 406
    OUT_OF_MEMORY = 701
    # End of what is made.

    def word(self) -> str:
        """The word of the kind in its line, such as "OutOfRange"."""
        return self.name.title().replace("_", "")


PARAMETERS = {
    # Made of the parameters of library/kinds.txt by tools/pages.
    1: "TrapWidth",
    2: "BlackWidth",
    3: "BlackColorLimit",
    4: "BlackDensityLimit",
    5: "StepLimit",
    6: "SlidingTrapLimit",
    7: "TrapColorScaling",
    8: "Enabled",
    9: "Trapping",
    # End of what is made.
}
