#!/usr/bin/env python3
# SPDX-License-Identifier: Apache-2.0
"""Compares the two hand-written declarations of the library with what the crate exports: boundary.py.

The exports are the `extern "C"` functions of crates/trap_c/src/lib.rt. library/trap.h has to declare each of them, and
no other, with the same arguments in the same order, of the same widths and under the same names; its structs of numbers
have to have the fields and the sizes of the crate's; and the ctypes table of python/trapping has to hand over the same
arguments.
What is compared is text: that the compiler passes a slice as a pointer and then a number of elements is the toolchain's
promise. The library is the one that TRAP_LIBRARY names, or library/out/libtrap.so.1.
"""
import ctypes
import os
import re
import sys
from dataclasses import dataclass
from pathlib import Path
from typing import Any, Dict, List, Tuple

TOP = Path(__file__).resolve().parents[2]
os.environ.setdefault("TRAP_LIBRARY", str(TOP / "library/out/libtrap.so.1"))
sys.path.insert(0, str(TOP / "python"))

from trapping import _library  # noqa: E402

# What C has for each type of an export: one or two arguments. `{}` stands for the argument's name.
IN_C: Dict[str, Tuple[str, ...]] = {
    "Global": (),
    "&[u8]": ("const char *{}", "size_t {}_size"),
    "&mut [u8]": ("uint8_t *{}", "size_t {}_size"),
    "&mut [u16]": ("uint16_t *{}", "size_t {}_size"),
    "u32": ("uint32_t {}",),
    "&Place": ("const struct trap_place *{}",),
    "&mut JobHandle": ("struct trap_job *{}",),
    "&mut Info": ("struct trap_info *{}",),
    "&mut ErrorRecord": ("struct trap_error *{}",),
    "&mut ReportRecord": ("struct trap_report *{}",),
    "&mut usize": ("size_t *{}",),
    "&mut u32": ("uint32_t *{}",),
}
# What ctypes may have for each argument of C, by its type.
IN_PYTHON: Dict[str, Tuple[object, ...]] = {
    "const char *": (ctypes.c_char_p, ctypes.c_void_p),
    "char *": (ctypes.c_void_p,),
    "uint8_t *": (ctypes.c_void_p,),
    "uint16_t *": (ctypes.c_void_p,),
    "size_t ": (ctypes.c_size_t,),
    "uint32_t ": (ctypes.c_uint32,),
    "const struct trap_place *": (ctypes.POINTER(_library.Place),),
    "struct trap_job *": (ctypes.POINTER(_library.Handle),),
    "struct trap_info *": (ctypes.POINTER(_library.Info),),
    "struct trap_error *": (ctypes.POINTER(_library.Error),),
    "struct trap_report *": (ctypes.POINTER(_library.Counts),),
    "size_t *": (ctypes.POINTER(ctypes.c_size_t),),
    "uint32_t *": (ctypes.POINTER(ctypes.c_uint32),),
}
# The structs of numbers: the crate's file and name, the name in C, and the struct of Python.
STRUCTS = (("place.rt", "Place", "trap_place", _library.Place), ("info.rt", "Info", "trap_info", _library.Info),
           ("error_record.rt", "ErrorRecord", "trap_error", _library.Error),
           ("report_record.rt", "ReportRecord", "trap_report", _library.Counts))
# A field: its name, the type of its numbers, and how many they are.
Field = Tuple[str, str, int]
RESULTS = {"u8": "trap_status", "u32": "uint32_t", "": "void"}
RESULTS_IN_PYTHON = {"trap_status": ctypes.c_uint8, "uint32_t": ctypes.c_uint32, "void": None}


@dataclass(frozen=True)
class Declared:
    """A function as C declares it: its result, and its arguments in order, each as `type name`."""

    result: str
    arguments: Tuple[str, ...]


def in_words(text: str) -> str:
    """The text with one space where it has white space."""
    return " ".join(text.split())


def in_c(name: str, kind: str) -> List[str]:
    """The arguments that C has for one of an export."""
    if (name, kind) == ("text", "&mut [u8]"):
        return ["char *text", "size_t text_size"]
    given = [form.format(name) for form in IN_C[kind]]
    return [one.replace("samples_size", "sample_count") for one in given]


def exports() -> Dict[str, Declared]:
    """The functions that the crate exports, as C has to declare them."""
    text = (TOP / "crates/trap_c/src/lib.rt").read_text(encoding="utf-8")
    found = {}
    for name, inside, result in re.findall(r'pub extern "C" fn (\w+)\(([^)]*)\)(?: -> (\w+))?', text):
        arguments: List[str] = []
        for one in filter(None, (in_words(it) for it in inside.split(","))):
            argument, kind = one.split(": ")
            arguments += in_c(argument, kind)
        found[name] = Declared(RESULTS[result], tuple(arguments))
    return found


def header() -> str:
    """trap.h without its comments and its lines for the preprocessor."""
    text = (TOP / "library/trap.h").read_text(encoding="utf-8")
    text = re.sub(r"/\*.*?\*/", " ", text, flags=re.DOTALL)
    return "\n".join(line for line in text.split("\n") if not line.startswith("#"))


def declared() -> Dict[str, Declared]:
    """The functions that trap.h declares."""
    found = {}
    for result, name, inside in re.findall(r"(\w+) (trap_\w+)\(([^)]*)\);", header()):
        arguments = tuple(in_words(one) for one in inside.split(",")) if inside != "void" else ()
        found[name] = Declared(result, arguments)
    return found


def fields_of_crate(file: str, name: str) -> List[Field]:
    """The fields of a struct of the crate with #[repr(C)], each a number or an array of numbers."""
    text = (TOP / "crates/trap_c/src" / file).read_text(encoding="utf-8")
    body = re.search(rf"#\[repr\(C\)\]\n[^{{]*pub struct {name} \{{(.*?)\}}", text, re.DOTALL)
    assert body, f"crates/trap_c/src/{file}: no struct {name} with #[repr(C)]"
    found = re.findall(r"pub (\w+): (?:\[(\w+); (\w+)\]|(\w+)),", body.group(1))
    return [(field, kind or item, number(text, count)) for field, item, count, kind in found]


def number(text: str, count: str) -> int:
    """How many items an array has, by a number or by a constant of the file; 1 for no array."""
    if not count:
        return 1
    return int(count) if count.isdigit() else int(re.search(rf"const {count}: usize = (\d+);", text)[1])  # type: ignore[index]


def fields_of_header(name: str) -> List[Field]:
    """The fields of a struct of trap.h, with the crate's names of their types."""
    body = re.search(rf"struct {name} \{{(.*?)\}};", header(), re.DOTALL)
    assert body, f"library/trap.h: no struct {name}"
    found: List[Field] = []
    for line in filter(None, (in_words(it) for it in body.group(1).split(";"))):
        kind, _, listed = line.partition(" ")
        for one in listed.split(", "):
            field, _, count = one.rstrip("]").partition("[")
            found.append((field, kind.replace("uint", "u").replace("_t", ""), int(count or 1)))
    return found


def fields_of_python(kind: Any) -> List[Field]:
    """The fields of a struct of ctypes."""
    known = {ctypes.c_uint32: "u32", ctypes.c_uint64: "u64"}
    return [(field, known[getattr(of, "_type_", None) if hasattr(of, "_length_") else of], getattr(of, "_length_", 1))
            for field, of in kind._fields_]


def struct_faults() -> List[str]:
    """How the structs of numbers differ between the crate, trap.h and Python, and what their sizes are."""
    faults = []
    for file, name, struct, kind in STRUCTS:
        crate, stands, handed = fields_of_crate(file, name), fields_of_header(struct), fields_of_python(kind)
        if not crate == stands == handed:
            faults.append(f"{name} is {crate} in the crate, {stands} in trap.h, {handed} in Python")
        size = re.search(r"const \w+_SIZE: u32 = (\d+);", (TOP / "crates/trap_c/src" / file).read_text(encoding="utf-8"))
        if size and int(size[1]) != ctypes.sizeof(kind):
            faults.append(f"{name} has {size[1]} bytes in the crate, and {ctypes.sizeof(kind)} in C")
    return faults


def struct_of_crate(file: str, name: str) -> str:
    """The fields of a struct with #[repr(C)] of job_handles, but its ghost fields."""
    text = (TOP / "crates/job_handles/src" / file).read_text(encoding="utf-8")
    body = re.search(rf"#\[repr\(C\)\]\n[^{{]*pub struct {name} \{{(.*?)\n\}}", text, re.DOTALL)
    assert body, f"crates/job_handles/src/{file}: no struct {name} with #[repr(C)]"
    return in_words(" ".join(line for line in body.group(1).split("\n") if "ghost" not in line))


def handle_faults() -> List[str]:
    """How struct trap_job differs from the crate's handle, which is a pointer and a flag: an allocator takes no bytes."""
    crate = (struct_of_crate("job_handle.rt", "JobHandle"), struct_of_crate("handle.rt", "Handle"))
    body = re.search(r"struct trap_job \{(.*?)\};", header(), re.DOTALL)
    stands = in_words(body.group(1)) if body else ""
    fields = _library.Handle._fields_
    wanted = ("inner: Handle, is_open: bool,", "at: *mut u8, alloc: Global,")
    is_same = crate == wanted and stands == "void *inner; uint8_t is_open;"
    if is_same and fields == [("inner", ctypes.c_void_p), ("is_open", ctypes.c_uint8)]:
        return []
    return [f"a handle is {crate} in the crate, {stands} in trap.h, {fields} in Python"]


def kind_faults() -> List[str]:
    """How the kinds and parameters of library/kinds.txt differ from the crate's definitions: each name has its number there, by the
    word of its line, and no other."""
    spec = (TOP / "crates/trap_c/specs/ErrorRecords.antt").read_text(encoding="utf-8")
    stands = sorted((int(number), word) for word, number in re.findall(
        r"^(?:kind_of_\w+|kind_of|number_of_key) \(?(\w+)(?: \w+)*\)? = (\d+)$", spec, re.M))
    renamed = {"Null": None, "FileTooManySamples": "TooManySamples", "TooManySamples": "PageTooLarge",
               "OutOfMemory": "Memory", "ReadFault": "Read", "WriteFault": "Write"}
    lines = (TOP / "library/kinds.txt").read_text(encoding="utf-8").splitlines()
    wanted = [(int(number), renamed.get(name, name)) for number, name, *_ in (line.split("\t") for line in lines if not line.startswith("#"))]
    wanted = sorted((number, name) for number, name in wanted if name)
    return [f"{number} is {name} in the crate or in library/kinds.txt, and not in both" for number, name in set(stands) ^ set(wanted)]


def version_of_crate() -> int:
    """What trap_version answers."""
    text = (TOP / "crates/trap_c/src/lib.rt").read_text(encoding="utf-8")
    found = re.search(r'extern "C" fn trap_version\(\) -> u32\s+ensures \{ result ≡ (\d+) \}', text)
    assert found, "crates/trap_c/src/lib.rt: no clause of trap_version"
    return int(found.group(1))


def type_of(argument: str) -> str:
    """The type of an argument of C."""
    return argument[:re.search(r"\w+$", argument).start()]  # type: ignore[union-attr]


def faults_of(name: str, export: Declared, stands: Dict[str, Declared]) -> List[str]:
    """How the header or the ctypes table differs from an export."""
    if name not in stands:
        return [f"trap.h does not declare {name}"]
    if stands[name] != export:
        return [f"trap.h declares {name} with {stands[name]}, and the crate exports {export}"]
    handed = _library._ARGUMENTS.get(name)
    if handed is None or len(handed) != len(export.arguments):
        return [f"the ctypes table has other arguments for {name}: {handed}"]
    if _library.export(name).restype is not RESULTS_IN_PYTHON[export.result]:  # type: ignore[attr-defined]
        return [f"ctypes takes another result of {name} than {export.result}"]
    return [
        f"the ctypes table hands {given} to {name} for {argument}"
        for argument, given in zip(export.arguments, handed)
        if given not in IN_PYTHON[type_of(argument)]
    ]


def main() -> int:
    """Prints each difference; the status is 1 where there is one."""
    made, stands = exports(), declared()
    faults = [fault for name, export in made.items() for fault in faults_of(name, export, stands)]
    faults += [f"trap.h declares {name}, which is no export" for name in stands.keys() - made.keys()]
    tabled = _library._ARGUMENTS.keys()
    faults += [f"the ctypes table has {name}, which is no export" for name in tabled - made.keys()]
    if "typedef uint8_t trap_status;" not in header():
        faults.append("trap.h: trap_status is no uint8_t")
    faults += struct_faults() + kind_faults()
    if f"#define LIBTRAP_VERSION {version_of_crate()} " not in (TOP / "library/trap.h").read_text(encoding="utf-8"):
        faults.append(f"trap.h has another LIBTRAP_VERSION than {version_of_crate()}, which trap_version answers")
    faults += handle_faults()
    for fault in faults:
        print(f"check/library/boundary.py: {fault}", file=sys.stderr)
    if not faults:
        print(f"library: trap.h and the ctypes table have the arguments of all {len(made)} exports, by order and width")
    return 1 if faults else 0


if __name__ == "__main__":
    sys.exit(main())
