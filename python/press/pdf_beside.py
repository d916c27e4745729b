# SPDX-License-Identifier: Apache-2.0
"""The trapped PDF of a run, beside its proof sheet; and the report of a trapped PDF."""
import os

from .files import scratch_folder, whole_file
from .folder import JobFolder
from .output_report import file_figures, page_figures, report_name, write_report
from .pdf import PdfResult, PdfSettings, write_trapped_pdf
from .settings import Settings
from .source import Source, open_source
from .trapped_page import read_trapped_page


def trapped_name(path: str) -> str:
    """The name of a file's trapped PDF: label-trapped.pdf for label.pdf."""
    return os.path.splitext(os.path.basename(path))[0] + "-trapped.pdf"


def write_beside(source: Source, out: str, settings: Settings) -> list[str]:
    """Writes the trapped PDF of all pages that are done in the folder of a run. Returns its warnings."""
    done, _ = JobFolder(out).pages()
    pages = [read_trapped_page(done[number]) for number in sorted(done)]
    final = os.path.join(out, trapped_name(source.path))
    how = PdfSettings(box=settings.box, icc=settings.icc, output_intent=settings.output_intent, strict=settings.strict)
    with whole_file(final) as made:
        result = write_trapped_pdf(source.pdf, made, pages, how, source.path)
    write_pdf_report(final, source.path, how, result)
    return result.warnings


def write_for(path: str, out: str, settings: Settings) -> list[str]:
    """The same of a file that is not open."""
    with scratch_folder() as scratch:
        return write_beside(open_source(path, scratch, settings.time), out, settings)


def write_pdf_report(out: str, source: str, settings: PdfSettings, result: PdfResult) -> None:
    """Writes the report beside a trapped PDF that is whole. `source` is the file that it was made of."""
    pages = [{**page_figures(done.page.folder, done.page.after, done.page.before), "box": done.box,
              "traps": done.changed, "painted": done.painted, "images": done.images} for done in result.pages]
    write_report(report_name(out), "press-pdf", {
        **file_figures(out, os.path.basename(out)), "source": file_figures(source, os.path.basename(source)),
        "verified": result.verified, "form": settings.form, "margin": settings.margin, "anchor": settings.anchor,
        "warnings": result.warnings, "pages": pages})
