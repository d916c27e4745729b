#!/usr/bin/env bash
# SPDX-License-Identifier: Apache-2.0
# Makes the PDF files of this folder again, each with its producer. Fonts and dates of the files differ with the producers' versions.
set -eu
cd "$(dirname "$0")"
pdflatex -interaction=batchmode latex.tex >/dev/null
rm -f latex.aux latex.log
inkscape inkscape.svg --export-filename=inkscape.pdf
weasyprint page.html weasyprint.pdf
chromium --headless --no-sandbox --disable-gpu --no-pdf-header-footer --print-to-pdf=chromium.pdf page.html
./cairo_page.py cairo.pdf
soffice --headless --convert-to pdf libreoffice.fodt
