# SPDX-License-Identifier: Apache-2.0
"""The lines that random cases are to meet, without their numbers."""
from slow.entries import PARAMETERS

JOB_KINDS = ["JobTooLong", "BadToken", "NumberTooLarge", "Unclosed", "Unmatched", "OddDictionary", "KeyNotName",
             "NameInside", "TooDeep", "UnknownOperator", "WrongOperands", "NotDictionary", "MissingKey", "WrongType",
             "BadDensity", "BadKind", "BadResolution", "NoCurrentPoint", "CoordinateRange", "TooManyVertices",
             "TooManyZones", "NoPageDevice", "NoShowpage", "AfterShowpage"]
JOB_LINES = (["job: %s at #" % kind for kind in JOB_KINDS] + ["job: WrongKind %s at #" % key for key in PARAMETERS]
             + ["job: OutOfRange %s at #" % key for key, ranges in PARAMETERS.items() if ranges]
             + ["job: WrongKind Trapping at #"])
PLATE_LINES = ["plate #: %s at #" % kind for kind in ("BadMagic", "BadHeader", "SideRange", "TooManySamples",
                                                     "MaxvalRange", "SampleAboveMaxval", "Truncated", "TrailingBytes")]
PAGE_LINES = ["page: SizeDiffers plate #", "page: MaxvalDiffers plate #", "page: ReachTooWide zone #",
              "job: NoDetails for plate #"]
READ_LINES = ["read fault: job", "read fault: plate #"]
WRITE_LINES = ["write fault: plate #", "write fault: report"]
GATHER_LINES = JOB_LINES + PLATE_LINES + PAGE_LINES + READ_LINES
# These come before the first page of a job of many pages.
WHOLE_JOB_LINES = ["job: %s at #" % kind for kind in [*JOB_KINDS[:9], "NoShowpage", "AfterShowpage"]]
