# SPDX-License-Identifier: Apache-2.0
"""Pages that a trapped PDF may fail at, and page folders of them with traps that a test makes up."""
import os
import resource
import signal
import subprocess
import sys
import tempfile
import urllib.parse
from collections.abc import Callable, Iterable
from pathlib import Path
from typing import Any

import numpy as np
import pikepdf
import tifffile
from pikepdf import Array, Dictionary, Name, Object, String

sys.path.insert(0, str(Path(__file__).resolve().parents[2] / "python"))

from press.folder import PageSource, write_table  # noqa: E402
from press.inks import Ink  # noqa: E402
from press.names import PROCESS, job_names  # noqa: E402
from press.plates import write_pgm  # noqa: E402

TOP = Path(__file__).resolve().parents[2]
WIDTH, HEIGHT = 204, 132
BOX = (0, 0, WIDTH, HEIGHT)
BOX_OPTIONS = {"media": [], "crop": ["-dUseCropBox"], "trim": ["-dUseTrimBox"]}
ART = b"""
.2 0 .9 0 k 20.3 18.7 160.2 90.4 re f
/Red cs 1 scn 60 40 70.5 60.5 re f
0 .9 .2 0 k 100.2 60.7 m 160 60 170 100 110 105.5 c f
/Varnish cs .8 scn 30 25 m 90 30 l 55 77 l f
1 0 0 .2 k BT /F 18 Tf 32 82 Td (Trapped 123) Tj ET
0 0 0 1 k BT /F 9 Tf 24 24 Td (small black type on green) Tj ET
q 1 0 .3 0 k 1 .1 -.1 1 0 0 cm 140 20 30 30 re f Q
"""
ALL = b"/All cs 1 scn 10 8 30 16 re f /Nothing cs 1 scn 50 8 30 16 re f /All cs .5 scn 90 8 60 16 re f\n"
SEE_THROUGH = b"q /Half gs 0 .7 .9 0 k 50 50 100 40 re f /Multiply gs /Red cs 1 scn 120 30 40 60 re f Q\n"


def number(text: str) -> Any:
    """A number of a PDF, as it is spelled."""
    return Object.parse(text.encode())


def spot(name: str, *look: float) -> Any:
    """The colour space of a spot colour."""
    return Array([Name.Separation, Name("/" + name), Name.DeviceCMYK,
                  Dictionary(FunctionType=2, Domain=[0, 1], C0=[0, 0, 0, 0], C1=list(look), N=1)])


def resources() -> Any:
    """What the art of all pages needs."""
    font = Dictionary(Type=Name.Font, Subtype=Name.Type1, BaseFont=Name("/Helvetica"))
    spaces = Dictionary(Red=spot("Test Red", 0, .95, .8, 0), Varnish=spot("Warm Gray", .1, .15, .2, .4),
                        All=spot("All", .9, .9, .9, 1), Nothing=spot("None", 0, 0, 0, 0))
    states = Dictionary(Half=Dictionary(ca=.5), Multiply=Dictionary(BM=Name.Multiply),
                        Over=Dictionary(OP=True, op=True, OPM=1))
    return Dictionary(Font=Dictionary(F=font), ColorSpace=spaces, ExtGState=states)


def add_page(pdf: pikepdf.Pdf, content: bytes, box: Iterable[float] = BOX, **more: Any) -> Any:
    """A page with this content; `more` are entries of its dictionary."""
    sides = Array([number(f"{side}") for side in box])
    page = Dictionary(Type=Name.Page, MediaBox=sides, Resources=resources(), Contents=pdf.make_stream(content), **more)
    pdf.pages.append(pikepdf.Page(pdf.make_indirect(page)))
    return pdf.pages[-1].obj


def one_page(content: bytes, box: Iterable[float] = BOX, **more: Any) -> pikepdf.Pdf:
    """A file of one page."""
    pdf = pikepdf.new()
    add_page(pdf, content, box, **more)
    return pdf


def moved(across: float, upward: float) -> bytes:
    """What moves the art."""
    return f"1 0 0 1 {across} {upward} cm\n".encode()


def group(space: Any) -> Any:
    """A transparency group that blends in this space."""
    return Dictionary(Type=Name.Group, S=Name.Transparency, CS=space, I=True)


def crop(*sides: str) -> Any:
    """A crop box."""
    return Array([number(side) for side in sides])


def soft_mask() -> pikepdf.Pdf:
    """A page whose contents end with a soft mask, an overprint and a blend mode still on."""
    pdf = one_page(ART + SEE_THROUGH + b"/Last gs 0 1 0 0 k 20 20 30 80 re f\n")
    shape = pdf.make_stream(b".5 g 0 0 204 132 re f", Type=Name.XObject, Subtype=Name.Form, BBox=[0, 0, WIDTH, HEIGHT],
                            Group=group(Name.DeviceGray))
    mask = Dictionary(S=Name.Luminosity, G=shape)
    pdf.pages[0].obj.Resources.ExtGState.Last = Dictionary(SMask=mask, BM=Name.Multiply, ca=.4, OP=True, op=True, OPM=1)
    return pdf


def opaque_group(space: Any) -> pikepdf.Pdf:
    """A page with a group of other colours in which nothing blends, as Cairo writes it. Its ground is of RGB."""
    pdf = one_page(b".2 .5 .3 rg 0 0 204 132 re f\n" + ART, Group=group(space))
    pdf.pages[0].obj.Resources.ExtGState = Dictionary(Plain=Dictionary(ca=1, CA=1, BM=Name.Normal, SMask=Name("/None")))
    return pdf


def profile(pdf: pikepdf.Pdf) -> Any:
    """A colour space of a CMYK profile that Ghostscript brings along; DeviceRGB where it is not there."""
    path = Path("/usr/share/color/icc/ghostscript/default_cmyk.icc")
    if not path.exists():
        return Name.DeviceRGB
    return pdf.make_indirect(Array([Name.ICCBased, pdf.make_stream(path.read_bytes(), N=4)]))


def profile_group() -> pikepdf.Pdf:
    """A page that blends in a CMYK profile."""
    pdf = one_page(ART + SEE_THROUGH)
    pdf.pages[0].obj.Group = group(profile(pdf))
    return pdf


def default_space() -> pikepdf.Pdf:
    """A page whose DeviceCMYK is a profile by its resources."""
    pdf = one_page(ART)
    space = profile(pdf)
    if space != Name.DeviceRGB:
        pdf.pages[0].obj.Resources.ColorSpace.DefaultCMYK = space
    return pdf


def named_alike() -> pikepdf.Pdf:
    """A page that has resources by the names that traps would take, and two streams with nothing between."""
    pdf = one_page(b"")
    page = pdf.pages[0].obj
    form = pdf.make_stream(ART, Type=Name.XObject, Subtype=Name.Form, BBox=[0, 0, WIDTH, HEIGHT], Resources=resources())
    page.Resources.XObject = Dictionary(Traps=form, Traps1=form)
    page.Contents = Array([pdf.make_stream(b"q /Traps Do"), pdf.make_stream(b"Q"), pdf.make_stream(b"")])
    return pdf


def no_resources() -> pikepdf.Pdf:
    """A page without resources."""
    pdf = one_page(b".2 0 .9 0 k 20 20 90 60 re f 0 .9 .2 0 k 60 40 90 60 re f")
    del pdf.pages[0].obj.Resources
    return pdf


# Each page as a file of its own. Those of CROPPED are drawn with their crop box.
CASES: dict[str, Callable[[], pikepdf.Pdf]] = {
    "plain": lambda: one_page(ART),
    "turned-90": lambda: one_page(ART, Rotate=90),
    "turned-180": lambda: one_page(ART, Rotate=180),
    "turned-270": lambda: one_page(ART, Rotate=270),
    "odd": lambda: one_page(ART, (0, 0, 199.37, 129.61)),
    "odd-90": lambda: one_page(ART, (0, 0, 199.37, 129.61), Rotate=90),
    "odd-180": lambda: one_page(ART, (0, 0, 199.37, 129.61), Rotate=180),
    "odd-270": lambda: one_page(ART, (0, 0, 199.37, 129.61), Rotate=270),
    "odd-375": lambda: one_page(ART, (0, 0, 199.29, 129.69)),
    "odd-375-90": lambda: one_page(ART, (0, 0, 199.29, 129.69), Rotate=90),
    "odd-375-180": lambda: one_page(ART, (0, 0, 199.29, 129.69), Rotate=180),
    "odd-450": lambda: one_page(ART, (0, 0, 199.308, 129.708)),
    "odd-600-270": lambda: one_page(ART, (0, 0, 199.34, 129.74), Rotate=270),
    "offset": lambda: one_page(moved(-33.3, 71.9) + ART, (-33.3, 71.9, 170.7, 203.9)),
    "offset-odd-270": lambda: one_page(moved(-33.31, 71.94) + ART, (-33.31, 71.94, 166.13, 201.57), Rotate=270),
    "crop-in-media": lambda: one_page(ART, CropBox=crop("20", "10", "188", "118")),
    "unit-2": lambda: one_page(ART, UserUnit=2),
    "unit-odd-90": lambda: one_page(ART, (0, 0, 199.37, 129.61), UserUnit=number("1.3"), Rotate=90),
    "all-none": lambda: one_page(ART + ALL),
    "see-through": lambda: one_page(ART + SEE_THROUGH),
    "group-cmyk": lambda: one_page(ART + SEE_THROUGH, Group=group(Name.DeviceCMYK)),
    "group-cmyk-opaque": lambda: one_page(ART, Group=group(Name.DeviceCMYK)),
    "group-gray": lambda: one_page(ART + SEE_THROUGH, Group=group(Name.DeviceGray)),
    "group-rgb": lambda: one_page(ART + SEE_THROUGH, Group=group(Name.DeviceRGB)),
    "group-profile": profile_group,
    "group-rgb-opaque": lambda: opaque_group(Name.DeviceRGB),
    "soft-mask": soft_mask,
    "unbalanced": lambda: one_page(b"q q .9 0 0 .9 5 5 cm\n" + ART),
    "too-many-Q": lambda: one_page(b"Q Q\n" + ART + b"Q\n"),
    "Q-undoes-nothing": lambda: one_page(b".9 0 0 .9 5 5 cm Q\n" + ART + b"Q /Half gs .8 0 0 .8 9 9 cm Q\n"),
    "text-left-open": lambda: one_page(ART + b"BT /F 12 Tf 3 Tr 1 0 0 1 40 40 Tm (open) Tj"),
    "overprint": lambda: one_page(b"/Over gs\n" + ART),
    "default-space": default_space,
    "named-alike": named_alike,
    "no-resources": no_resources,
    "blank": lambda: one_page(b""),
}
CROPPED: dict[str, Callable[[], pikepdf.Pdf]] = {
    "crop": lambda: one_page(ART, CropBox=crop("20", "10", "188", "118")),
    "crop-odd-90": lambda: one_page(ART, CropBox=crop("20", "10", "177.77", "119.33"), Rotate=90),
    "crop-unit": lambda: one_page(ART, CropBox=crop("20.2", "10", "188", "118"), UserUnit=number("1.5"), Rotate=180),
}


def joined(cases: Iterable[Callable[[], pikepdf.Pdf]]) -> pikepdf.Pdf:
    """The pages of several files as one file."""
    pdf = pikepdf.new()
    for case in cases:
        with case() as one:
            pdf.pages.append(one.pages[0])
    return pdf


def three_pages() -> pikepdf.Pdf:
    """Pages that share resources, which stand in the tree above them; one is turned, one is cropped."""
    pdf = pikepdf.new()
    for at, more in enumerate((Dictionary(), Dictionary(Rotate=90), Dictionary(CropBox=Array([20, 10, 188, 118])))):
        page = add_page(pdf, ART + (ALL if at == 2 else b""))
        del page.Resources
        for key, value in more.items():
            page[key] = value
    pdf.Root.Pages.Resources = pdf.make_indirect(resources())
    return pdf


def hidden_layer() -> pikepdf.Pdf:
    """A page whose contents begin a hidden layer and do not end it."""
    pdf = one_page(ART + b"/OC /Hidden BDC 1 1 1 1 k 0 0 90 90 re f\n")
    hidden = pdf.make_indirect(Dictionary(Type=Name.OCG, Name=String("Hidden")))
    pdf.Root.OCProperties = Dictionary(OCGs=Array([hidden]), D=Dictionary(Order=Array([hidden]), OFF=Array([hidden])))
    pdf.pages[0].obj.Resources.Properties = Dictionary(Hidden=hidden)
    return pdf


def layers_off() -> pikepdf.Pdf:
    """A file in which all layers are off unless they are named."""
    pdf = hidden_layer()
    pdf.Root.OCProperties.D = Dictionary(BaseState=Name.OFF)
    return pdf


def with_annotations() -> pikepdf.Pdf:
    """A page with a stamp that is printed, a note that is not, and a link; and a bookmark."""
    pdf = one_page(ART)
    look = pdf.make_stream(b"0 0 0 1 k 0 0 40 20 re f", Type=Name.XObject, Subtype=Name.Form, BBox=[0, 0, 40, 20])
    note = pdf.make_stream(b"1 0 0 0 k 0 0 40 20 re f", Type=Name.XObject, Subtype=Name.Form, BBox=[0, 0, 40, 20])
    stamp = Dictionary(Type=Name.Annot, Subtype=Name.Stamp, F=4, Rect=[120, 55, 160, 75], AP=Dictionary(N=look))
    remark = Dictionary(Type=Name.Annot, Subtype=Name.Text, F=0, Rect=[20, 55, 60, 75], AP=Dictionary(N=note))
    link = Dictionary(Type=Name.Annot, Subtype=Name.Link, Rect=[30, 80, 90, 100], Border=[0, 0, 0],
                      A=Dictionary(S=Name.URI, URI=String("https://example.com/")))
    pdf.pages[0].obj.Annots = Array([pdf.make_indirect(one) for one in (stamp, remark, link)])
    with pdf.open_outline() as outline:
        outline.root.append(pikepdf.OutlineItem("The first page", 0))
    return pdf


# Page folders

def draw(path: Path, folder: Path, dpi: int, box: str, icc: Path | None = None) -> list[dict[bytes, Any]]:
    """The plates of each page by tiffsep, by each ink's name."""
    profile = [f"-sOutputICCProfile={icc}", f"-sDefaultCMYKProfile={icc}", f"--permit-file-read={icc}"] if icc else []
    count = len(pikepdf.open(path).pages)
    with tempfile.TemporaryDirectory(dir=folder) as scratch:
        subprocess.run(["gs", "-q", "-dSAFER", "-dNOPAUSE", "-dBATCH", "-dPDFSTOPONERROR", "-sDEVICE=tiffsep",
                        f"-r{dpi}", "-dMaxBitmap=0", "-dMaxSpots=60", "-sCompression=none",
                        f"-sOutputFile={scratch}/page%d.tif", *BOX_OPTIONS[box], *profile, str(path)],
                       check=True, stdout=subprocess.DEVNULL)
        pages: list[dict[bytes, Any]] = [{} for _ in range(count)]
        for file in sorted(os.listdir(os.fsencode(scratch))):
            number_text, bracket, name = file.removesuffix(b").tif").partition(b"(")
            if bracket:
                found = tifffile.imread(os.path.join(os.fsencode(scratch), file).decode("utf-8", "surrogateescape"))
                pages[int(number_text[4:]) - 1][urllib.parse.unquote_to_bytes(name)] = found
    return pages


def pretended(plate: Any, inked: Any, seed: int) -> Any:
    """A plate with traps that a test makes up: at edges ink is added in some places, and taken in others. As with a
    real trap, no ink comes to bare paper."""
    low, high = plate.copy(), plate.copy()
    for axis in (0, 1):
        for step in (-1, 1):
            low, high = np.minimum(low, np.roll(plate, step, axis)), np.maximum(high, np.roll(plate, step, axis))
    rows, columns = np.indices(plate.shape)
    where = (rows // 5 * 3 + columns // 7 + seed) % 4
    return np.where(inked & (where == 0), low, np.where(where == 1, high, plate)).astype(np.uint8)


def write_folder(folder: Path, plates: dict[bytes, Any], source: PageSource) -> None:
    """A page folder with made-up traps."""
    (folder / "trapped").mkdir(parents=True)
    process = [name.encode() for name in PROCESS]
    colorants = process + sorted(name for name in plates if name not in process)
    inked = np.minimum.reduce(list(plates.values())) < 255
    inks = []
    for at, (colorant, name) in enumerate(zip(colorants, job_names(colorants))):
        plate = plates[colorant]
        look = PROCESS[name][1] if name in PROCESS else (0.0, 50.0, 30.0, 20.0)
        inks.append(Ink(name, colorant, colorant, "1.0", look=look, has_ink=bool((plate < 255).any())))
        write_pgm(str(folder / f"{name}.pgm"), plate, 255)
        write_pgm(str(folder / "trapped" / f"{name}.pgm"), pretended(plate, inked, at), 255)
    write_table(str(folder), source, tuple(inks))


def folders_of(path: Path, dpi: int = 72, box: str = "media", icc: Path | None = None) -> list[Path]:
    """A page folder for each page of a file."""
    folders = []
    for number_of_page, plates in enumerate(draw(path, path.parent, dpi, box, icc), 1):
        folder = path.parent / f"{path.stem}-{dpi}-{number_of_page}"
        write_folder(folder, plates, PageSource(os.fsencode(path.name), number_of_page, dpi))
        folders.append(folder)
    return folders


# Commands that fail

KILLED = """
import os, runpy, signal, sys
rename, names = os.replace, []
def replace(source, end):
    names.append(end)
    if len(names) == {which}:
        os.kill(os.getpid(), signal.SIGKILL)
    rename(source, end)
os.replace = replace
sys.argv = {words!r}
runpy.run_path(sys.argv[0], run_name="__main__")
"""


def killed_at_rename(which: int, command: str, *words: str | Path) -> None:
    """Runs a command that is killed outright at its first, second or later rename."""
    argv = [str(TOP / "press" / command), *(str(word) for word in words)]
    done = subprocess.run([sys.executable, "-B", "-c", KILLED.format(which=which, words=argv)], check=False,
                          capture_output=True)
    assert done.returncode == -signal.SIGKILL, done


def run_with_room(size: int, command: str, *words: str | Path) -> "subprocess.CompletedProcess[str]":
    """Runs a command that cannot write files larger than this, as on a full disk."""
    def limit() -> None:
        resource.setrlimit(resource.RLIMIT_FSIZE, (size, size))

    argv = [sys.executable, "-B", str(TOP / "press" / command), *(str(word) for word in words)]
    # pylint: disable-next=subprocess-popen-preexec-fn
    return subprocess.run(argv, check=False, capture_output=True, text=True, preexec_fn=limit)


def run_command(command: str, *words: str | Path) -> "subprocess.CompletedProcess[str]":
    """Runs a command to its end."""
    argv = [sys.executable, "-B", str(TOP / "press" / command), *(str(word) for word in words)]
    return subprocess.run(argv, check=False, capture_output=True, text=True)


def files_in(folder: Path) -> dict[str, bytes]:
    """The files of a folder."""
    return {path.name: path.read_bytes() for path in folder.iterdir() if path.is_file()}


def saved(pdf: pikepdf.Pdf, path: Path) -> Path:
    """The file on the disk."""
    with pdf:
        pdf.save(path, static_id=True)
    return path
