#!/usr/bin/env python3
# SPDX-License-Identifier: Apache-2.0
"""Measures what the outputs of a trapped page take: press/pdf without its proof and with it, and press/screen for all
plates. The page is A4 with ten labels of examples/label, front and back in turn, in six inks."""
import argparse
import json
import os
import subprocess
import tempfile
import time

import pikepdf

TOP = os.path.dirname(os.path.dirname(os.path.abspath(__file__)))
LABEL = os.path.join(TOP, "examples", "label")
A4 = (595.276, 841.89)
COLUMNS, ROWS, STEP = 2, 5, (262, 168)


def make_page(path):
    """A4 with ten labels on it."""
    with pikepdf.open(os.path.join(LABEL, "label.pdf")) as label, pikepdf.new() as pdf:
        forms = [pdf.copy_foreign(page.as_form_xobject()) for page in label.pages]
        places = [(36 + STEP[0] * column, A4[1] - STEP[1] * (row + 1))
                  for row in range(ROWS) for column in range(COLUMNS)]
        words = "\n".join(f"q 1 0 0 1 {x} {y:.3f} cm /L{at % 2} Do Q" for at, (x, y) in enumerate(places))
        resources = pikepdf.Dictionary(XObject=pikepdf.Dictionary({f"/L{at}": form for at, form in enumerate(forms)}))
        page = pikepdf.Dictionary(Type=pikepdf.Name.Page, MediaBox=[0, 0, *A4], Resources=resources,
                                  Contents=pdf.make_stream(words.encode()))
        pdf.pages.append(pikepdf.Page(pdf.make_indirect(page)))
        pdf.save(path)


def run(*words):
    """Runs a press command: seconds by the clock and of processors, and the megabytes of its largest process."""
    start = time.perf_counter()
    child = subprocess.Popen([os.path.join(TOP, "press", words[0]), *words[1:]], stdout=subprocess.DEVNULL,
                             stderr=subprocess.DEVNULL)
    _, status, used = os.wait4(child.pid, 0)
    if status:
        raise SystemExit(f"press/{' '.join(words)} ended with {os.waitstatus_to_exitcode(status)}")
    return time.perf_counter() - start, used.ru_utime + used.ru_stime, used.ru_maxrss / 1000


def main():
    parser = argparse.ArgumentParser(description=__doc__)
    parser.add_argument("--dpi", type=int, default=600)
    parser.add_argument("--runs", type=int, default=3)
    asked = parser.parse_args()
    with tempfile.TemporaryDirectory() as folder:
        page, source, out = (os.path.join(folder, name) for name in ("page", "a4.pdf", "out.pdf"))
        make_page(source)
        run("plates", source, page, "--dpi", str(asked.dpi), "--inks", os.path.join(LABEL, "label.inks"), "--width",
            "0.3pt")
        run("trap", page)
        for name, words in (("press/pdf --no-verify", ["pdf", source, out, page, "--no-verify"]),
                            ("press/pdf", ["pdf", source, out, page]),
                            ("press/screen, all plates",
                             ["screen", page, os.path.join(folder, "bits"), "--jobs", "1"])):
            clock, processors, memory = (min(part) for part in zip(*[run(*words) for _ in range(asked.runs)]))
            print(f"{name}: {clock:.1f} s by the clock, {processors:.1f} s of processors, {memory:.0f} MB", flush=True)
        with open(os.path.join(folder, "out.json"), encoding="utf-8") as file:
            told = json.load(file)["pages"][0]
        growth = os.path.getsize(out) - os.path.getsize(source)
        print(f"{told['traps']} pixels are traps, {told['painted']} are painted; the file grows by {growth} bytes, "
              f"{growth / told['painted']:.2f} a painted pixel")


main()
