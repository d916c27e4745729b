# SPDX-License-Identifier: Apache-2.0
"""What the documents show is run as it stands there: each command, job, table and program of README, docs/, the package's and the
examples' READMEs, and the examples of manual pages.

Commands run at the top of a copy of the repository, in the order of their document. These rules make them small and safe:

- label.pdf and book.pdf are the label of examples/label, and the inputs of SETUP are made of it;
- press/all and press/plates render at 300 dpi, whatever they are told, so a --part is half as large; press/screen screens at 600 dpi
  and 40 lpi;
- PREFIX is a folder of the test, `press NAME` is press/NAME, and a program is that of bin/;
- what press/all, press/plates and press/farm make starts without an earlier result;
- the commands of LEFT_OUT are not run, each for its reason.
"""
import os
import re
import shutil
import subprocess
import sys
import venv
from collections.abc import Iterator
from pathlib import Path

import pytest
from conftest import program_path
from document_blocks import DOCUMENTS, JOB, PAGES, Block, blocks_of, every_block, fault_examples
from press import engine, job, pairs, plates, screen_table
from press.inks import Ink, inks_of_file
from room import TOP, needs, there

DPI, FILM_DPI, FILM_LPI = "300", "600", "40"
LEFT_OUT = {
    r"apt install .*": "needs the administrator; test_packages_are_named looks at the names",
    r"\./test": "takes minutes, and runs these tests",
    r"make install": "writes below /usr/local; docs/LIBRARY.md's line is run with another PREFIX",
    r"make deb wheel": "takes minutes and debhelper; docs/LIBRARY.md's `make wheel` is run",
    r"press[/ ]desk .*": "goes on until it is stopped: test_desk_server.py runs it",
    r"bench/desk\.py": "measures for minutes, in a browser",
    r"press/tests/compare_commits\.py 16ed03be .*": "compares for an hour, and needs the history",
    r"press/watch hot --dpi 1200|press/watch --config watch\.toml": "goes on until it is stopped: test_watch.py runs it",
    r"press/farm book\.pdf out --hosts .*": "needs two more machines",
    r"sbatch .*|eval \"\$\(press slurm-here .*|press slurm-here stop .*": "needs Slurm's daemons: test_farm.py runs them where they are",
    r"trapkeep .*": "a synopsis",
    r"examples/library/run\.sh": "check/library.sh runs it",
    r"check/library\.sh 2000 1": "takes minutes; the gate runs it",
    r"mkdir -p out/first .*|poster=.*|for ink in .*|\.\./\.\./bin/trapsheet .*|cat report": "tools/tests/test_documents.py runs them as one",
}
# The commands that make what a document starts with.
PAGE = ("press/plates label.pdf page --kind 'Gold Foil=Normal'", "press/trap page")
TIFFS = (*PAGE, "press/tiff --untrapped --name all page tiffs", "cp 'tiffs/all(Cyan).tif' c.tif", "cp 'tiffs/all(Magenta).tif' m.tif",
         "cp 'tiffs/all(Black).tif' k.tif", "cp 'tiffs/all(Label Red).tif' r.tif", "rm -r page")
PLATES = ("cp examples/poster/poster.job .", "cp poster.job sheet.job", "gzip -dc examples/poster/plates/Cyan.pgm.gz >c.pgm",
          "gzip -dc examples/poster/plates/Magenta.pgm.gz >m.pgm")
SETUP: dict[str, tuple[str, ...]] = {
    "docs/SCREENING.md": (*PAGE, "press/all label.pdf out"), "docs/ZONES.md": PAGE, "man/press-zones.1": PAGE, "docs/OUTPUT.md": TIFFS, "man/press-plates.1": TIFFS,
    "man/press-look.1": PAGE, "man/trap.1": PLATES, "man/presscheck.1": PLATES, "man/trapset.1": PLATES, "man/trapsheet.1": PLATES,
    "man/trappool.1": (*PLATES, *(f"cp poster.job {name}; cp c.pgm {name}.c; cp m.pgm {name}.k" for name in ("prefix", "back")),
                       "grep -E '^(prefix|back) ' man/trappool.1 >list"),
    "docs/JOB_VERSIONS.md": tuple(f"mkdir -p {place}; cp label.pdf {place}/catalogue.pdf" for place in (".", "monday", "tuesday")),
    "examples/poster/README.md": ("examples/poster/run.sh",)}
RENDERING = re.compile(r"press/(all|plates|farm) ")


def reason_for(command: str) -> str | None:
    """Why a command is left out, or None."""
    return next((reason for pattern, reason in LEFT_OUT.items() if re.fullmatch(pattern, command)), None)


# That nothing is left out without a reason

def test_every_block_is_known() -> None:
    """Each block is of a kind that a test here runs, or is no input of a program: pictures, formulas, contracts, printed lines."""
    shown = [(block.document, block.text) for block in every_block() if block.kind == "other"]
    expected = {"docs/DESIGN.md": "words  ", "docs/KEEPAWAY.md": "t'(p)", "docs/PLATES.md": "50 35",
                "docs/TRAPPED_PDF.md": "press-pdf: ", "docs/JOB_VERSIONS.md": "page 1: the same"}
    assert [document for document, text in shown if not text.startswith(expected.get(document, "\0"))] == []


def test_programs_in_rust_are_known() -> None:
    """What is shown in Rust is a contract, which the prover checks, and calls of the package rust/trapping, which has tests of its own."""
    shown = [(block.document, block.text) for block in every_block() if block.kind in ("rust", "toml")]
    known = {"README.md": "pub fn apply", "docs/LIBRARY.md": "trapping"}
    assert [document for document, text in shown if known.get(document, "\0") not in text] == []
    assert not any(document == "docs/LIBRARY.md" for document, _ in shown) or (TOP / "rust" / "trapping").is_dir()


def test_reasons_are_for_commands_that_are_there() -> None:
    """No reason is left over."""
    commands = [command for block in every_block() if block.kind == "commands" for command in block.commands()]
    assert [pattern for pattern in LEFT_OUT if not any(re.fullmatch(pattern, command) for command in commands)] == []


# Jobs, tables, plates, reports

def header(text: str) -> str:
    """What a job needs in front that this one does not say."""
    details = "" if "TrappingDetails" in text else " /TrappingDetails << /Type 1001 /ColorantDetails << >> >>"
    return f"<< /HWResolution [72 72]{details} /Trapping {'true' if 'NeutralDensity' in text else 'false'} >> setpagedevice\n"


JOBS = [block for block in every_block() if block.kind == "job"]


@pytest.mark.quick
@pytest.mark.plain
@pytest.mark.parametrize("block", JOBS, ids=[f"{block.document}-{at}" for at, block in enumerate(JOBS)])
def test_jobs_are_valid(block: Block, built: None) -> None:
    """The program takes each job; what is a part of one gets a head and showpage."""
    text = block.text if "HWResolution" in block.text else header(block.text) + block.text
    if text.count("showpage") > 1:
        return
    text += "" if "showpage" in text else "showpage\n"
    names = [name for name in re.findall(r"/(\w+)\s+<< /NeutralDensity", text)] or ["Ink"]
    engine.judge(job.Job(text.encode(), ()), names[:16])


@pytest.mark.quick
@pytest.mark.plain
@pytest.mark.parametrize("fault, text, offset", list(fault_examples()))
def test_faults_are_reported_as_shown(tmp_path: Path, built: None, fault: str, text: str, offset: int) -> None:
    """The examples of the table of faults, each with its offset, as they stand there or with the operator and showpage after them."""
    program = program_path("trap")
    assert program
    (tmp_path / "plate").write_bytes(b"P5\n1 1\n255\n\xff")
    operator = "setpagedevice" if "TrappingDetails" in text else "" if JOB.search(text) else "settrapparams"
    printed = []
    for whole in (text, f"{text} {operator} showpage"):
        (tmp_path / "job").write_text(whole)
        done = subprocess.run([program, "page", "job", "report", "Ink:plate:out.pgm"], cwd=tmp_path, capture_output=True, text=True, check=False)
        printed.append(done.stdout.strip())
    assert any(re.fullmatch(rf"job: {fault}( \w+)? at {offset}", line) for line in printed), printed


@pytest.mark.quick
@pytest.mark.plain
def test_job_of_three_pages_traps_as_said(tmp_path: Path) -> None:
    """The first page is not trapped, the second only within its triangle, the third as a whole."""
    program = program_path("traprun")
    if program is None:
        pytest.skip("the program traprun is not built")
    block, = (block for block in JOBS if block.text.count("showpage") == 3)
    (tmp_path / "job").write_text(block.text)
    half = {"Cyan": b"\0" * 6 + b"\xff" * 14, "Magenta": b"\xff" * 6 + b"\0" * 14}
    for name, row in half.items():
        (tmp_path / name).write_bytes((b"P5\n20 20\n255\n" + row * 20) * 3)
    words = [str(program), "1", "16", "job", "report", *(f"{name}:{name}:{name}.out" for name in half)]
    done = subprocess.run(words, cwd=tmp_path, capture_output=True, text=True, check=False)
    assert done.returncode == 0, done.stdout
    changed = [sum(map(int, re.findall(r"^zone \d+ samples \d+ changed (\d+)", (tmp_path / f"report.{page}").read_text(), re.M)))
               for page in range(3)]
    assert changed[0] == 0 < changed[1] < changed[2], changed


TABLES = [block for block in every_block() if block.kind == "table"]


@pytest.mark.quick
@pytest.mark.plain
@pytest.mark.parametrize("block", TABLES, ids=[f"{block.document}-{at}" for at, block in enumerate(TABLES)])
def test_tables_are_read(tmp_path: Path, block: Block) -> None:
    """Tables of inks, of pairs and of screens."""
    table = tmp_path / "table"
    table.write_text(block.text)
    lines = len([line for line in block.text.splitlines() if not line.startswith("#")])
    if block.document == "docs/SCREENING.md":
        (tmp_path / "flexo.curve").write_text("50\t38\n")
        inks = [Ink(name, name.encode(), b"", "1.0") for name in ("Cyan", "Magenta", "Yellow", "Black", "Warm Red")]
        usual = {ink.name: screen_table.InkScreen(screen_table.Screen(0, 133)) for ink in inks}
        found, strangers = screen_table.read_table(str(table), usual, inks)
        assert not strangers and found["Cyan"].screen.angle == 7.5 and found["Cyan"].curve_name == "flexo.curve"
    elif re.search(r"\t(under|never|[\d.]+)$", block.text.splitlines()[0]):
        assert len(pairs.read_pairs(str(table))) == lines
    else:
        assert len(inks_of_file(str(table))) == lines


@pytest.mark.quick
@pytest.mark.plain
def test_plate_and_report_are_as_shown(tmp_path: Path) -> None:
    """The bytes of a plate are read as one, and the report is the poster's."""
    data, = (block.text for block in blocks_of("docs/PLATES.md") if block.kind == "other")
    (tmp_path / "plate.pgm").write_bytes(bytes.fromhex(data))
    assert plates.read_pgm(str(tmp_path / "plate.pgm")).tolist() == [[0, 0, 0, 255, 255, 255]]
    expected = (TOP / "examples" / "poster" / "expected" / "report").read_text()
    assert all(block.text == expected for document in ("README.md", "docs/REPORT.md") for block in blocks_of(document) if block.kind == "text")


@pytest.mark.plain
@needs("apt-cache")
def test_packages_are_named() -> None:
    """Each package of an `apt install` is one of Debian's."""
    names = {name for block in every_block() if block.kind == "commands" for command in block.commands()
             if command.startswith("apt install ") for name in command.split()[2:]}
    done = subprocess.run(["apt-cache", "show", "--no-all-versions", *sorted(names)], capture_output=True, text=True, check=False)
    found = set(re.findall(r"^Package: (\S+)", done.stdout, re.M))
    if not found:
        pytest.skip("apt has no lists of packages")
    assert names <= found, names - found


# Commands

@pytest.fixture(scope="session", name="repository")
def fixture_repository(tmp_path_factory: pytest.TempPathFactory) -> Path:
    """A copy of the repository with its programs."""
    place = tmp_path_factory.mktemp("documents") / "repository"
    listed = subprocess.run(["git", "ls-files", "-z", "--cached", "--others", "--exclude-standard"], cwd=TOP, capture_output=True, text=True, check=True)
    for name in filter(None, listed.stdout.split("\0")):
        if (TOP / name).is_file():
            (place / name).parent.mkdir(parents=True, exist_ok=True)
            shutil.copy2(TOP / name, place / name, follow_symlinks=False)
    return place


@pytest.fixture(name="reader")
def fixture_reader(repository: Path, environment: dict[str, str], tmp_path: Path) -> Iterator["Reader"]:
    """A reader at the top of the repository, with nothing there that another document made."""
    before = set(os.listdir(repository))
    yield Reader(repository, tmp_path, {**environment, "TMPDIR": str(tmp_path), "PRESS_HOUSE": str(tmp_path)})
    for name in {*os.listdir(repository)} - before | {"out"}:
        place = repository / name
        if place.is_dir() and not place.is_symlink():
            for inside in place.iterdir():
                if (name, inside.name) != ("out", "release"):
                    shutil.rmtree(inside) if inside.is_dir() else inside.unlink()
            if name != "out":
                place.rmdir()
        elif place.exists():
            place.unlink()


class Reader:
    """Someone who types what a document shows."""

    def __init__(self, folder: Path, scratch: Path, environment: dict[str, str]) -> None:
        self.folder, self.scratch, self.environment = folder, scratch, environment
        self.place = folder
        for name in ("label", "book"):
            for end in ("pdf", "inks", "zones", "2.zones"):
                if (folder / "examples" / "label" / f"label.{end}").exists():
                    shutil.copy(folder / "examples" / "label" / f"label.{end}", folder / f"{name}.{end}")

    def small(self, command: str) -> str:
        """A command by the rules above."""
        command = re.sub(r"^press ", "press/", command)
        command = re.sub(r"^(env )?(trap|trapset|trapsheet|trappool|traprun|presscheck) ", r"bin/\2 ", command)
        command = re.sub(r"PREFIX=\S+", f"PREFIX={self.scratch}/usr", command)
        command = re.sub(r"(?<= )(--dpi|--lpi) \d+ ?", "", command) if re.match(r"press/(all|plates|screen) ", command) else command
        if re.match(r"press/(all|plates) ", command) and "--tiff" not in command:
            command = re.sub(r"^press/\w+", rf"\g<0> --dpi {DPI}", command)
        if command.startswith("press/screen "):
            command = re.sub(r"^press/\w+", rf"\g<0> --dpi {FILM_DPI} --lpi {FILM_LPI}", command)
            command = re.sub(r"(?<=--part )[\d,]+", lambda part: ",".join(str(int(one) // 2) for one in part[0].split(",")), command)
        return command

    def clear(self, command: str) -> None:
        """Removes an earlier result of a command."""
        operands = [word for word in command.split() if not word.startswith("-")]
        if RENDERING.match(command) and not re.search("--tiff|--only-changed", command) and len(operands) > 2:
            shutil.rmtree(self.place / operands[2], ignore_errors=True)
        elif "--tiff" in command:
            shutil.rmtree(self.place / "page", ignore_errors=True)

    def types(self, command: str) -> None:
        """Runs a command, which has to end well."""
        self.clear(re.sub("^press ", "press/", command))
        command = self.small(command)
        if command.startswith("cd "):
            self.place = self.place / command[3:]
            return
        environment = {**self.environment, "PKG_CONFIG_PATH": f"{self.scratch}/usr/lib/pkgconfig", "LD_LIBRARY_PATH": f"{self.scratch}/usr/lib"}
        if (self.scratch / "venv").exists():
            environment["PATH"] = f"{self.scratch}/venv/bin:{environment['PATH']}"
        done = subprocess.run(["bash", "-euc", command], cwd=self.place, env=environment, stdin=subprocess.DEVNULL, capture_output=True,
                              text=True, errors="replace", timeout=900, check=False)
        assert done.returncode == 0, f"{command} ended with {done.returncode}\n{done.stdout[-2000:]}\n{done.stderr[-2000:]}"

    def reads(self, document: str) -> int:
        """Types what a document shows. Answers how many commands that were."""
        commands = [command for block in blocks_of(document) if block.kind == "commands" for command in block.commands()]
        wanted = [command for command in commands if reason_for(command) is None]
        if any(command.startswith("pip ") for command in wanted):
            venv.create(self.scratch / "venv", with_pip=True, system_site_packages=True)
        for command in (*(SETUP.get(document, ()) if wanted else ()), *wanted):
            self.types(command)
        return len(wanted)


def with_commands(names: list[str]) -> list[str]:
    """The documents that show commands that are run."""
    return [name for name in names if any(reason_for(command) is None for block in blocks_of(name) if block.kind == "commands"
                                          for command in block.commands())]


@pytest.mark.slow
@needs("gs", "mutool", "git", "make", "cc")
@pytest.mark.parametrize("document", with_commands([*DOCUMENTS, *PAGES]))
def test_commands_end_well(reader: Reader, built: None, document: str) -> None:
    """Every command of a document ends with status 0, in the document's order."""
    if document == "docs/LIBRARY.md" and not Path("/usr/include/ghostscript/iapi.h").exists():
        pytest.skip("Ghostscript's library is not installed")
    if document == "docs/JSON.md" and not there("jq"):
        pytest.skip("jq is not installed")
    assert reader.reads(document)


# Programs

@pytest.mark.plain
@needs("cc")
def test_calls_in_c_compile(tmp_path: Path) -> None:
    """The calls of docs/LIBRARY.md, within a function that has what they speak of."""
    texts = [block.text for block in blocks_of("docs/LIBRARY.md") if block.kind == "c"]
    assert len(texts) == 4
    body = "\n".join(texts).replace("#include <trap.h>\n", "")
    (tmp_path / "call.c").write_text(
        "#include <stdio.h>\n#include <string.h>\n#include <trap.h>\n"
        "int call(const uint8_t *job, size_t job_size, uint8_t *planes, uint32_t width, uint32_t height, uint32_t step,\n"
        "         uint32_t maxval, uint8_t *window, size_t count, size_t names_size) {\n" + body + "\nreturn status; }\n")
    done = subprocess.run(["cc", "-fsyntax-only", f"-I{TOP / 'library'}", "call.c"], cwd=tmp_path, capture_output=True, text=True, check=False)
    assert done.returncode == 0, done.stderr


@pytest.mark.slow
def test_calls_in_python_run(repository: Path, environment: dict[str, str]) -> None:
    """The calls of docs/LIBRARY.md and of the package's README, on planes of a small page."""
    texts = [block.text for document in ("docs/LIBRARY.md", "python/README.md") for block in blocks_of(document) if block.kind == "python"]
    assert len(texts) == 4
    done = subprocess.run(["library/build"], cwd=repository, env=environment, capture_output=True, text=True, check=False)
    if done.returncode != 0:
        pytest.skip("the library is not built")
    shutil.copy(repository / "examples" / "library" / "label.job", repository)
    before = ("import numpy\njob = open('label.job', 'rb').read()\nheight = width = rows = columns = 40\ntop, bottom = 10, 20\n"
              "cyan, magenta = numpy.zeros((40, 40), numpy.uint8), numpy.zeros((40, 40), numpy.uint8)\n"
              "planes = numpy.zeros((2, 40, 40), numpy.uint8)\nsheet, names = planes.copy(), ['Cyan', 'Magenta']\n")
    done = subprocess.run([sys.executable, "-c", before + "\n".join(texts)], cwd=repository, env={**environment, "PYTHONPATH": "python"},
                          capture_output=True, text=True, check=False)
    (repository / "label.job").unlink()
    assert done.returncode == 0, done.stderr
