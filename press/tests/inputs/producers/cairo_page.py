#!/usr/bin/env python3
# SPDX-License-Identifier: Apache-2.0
"""Draws a card with cairo: cairo_page.py OUT.pdf. 200 by 140 points, with a gradient, type over it, and thin lines."""
import sys

import cairo

surface = cairo.PDFSurface(sys.argv[1], 200, 140)
context = cairo.Context(surface)
gradient = cairo.LinearGradient(0, 0, 200, 0)
gradient.add_color_stop_rgb(0, 0.1, 0.3, 0.7)
gradient.add_color_stop_rgb(1, 0.9, 0.8, 0.1)
context.set_source(gradient)
context.rectangle(10, 10, 180, 80)
context.fill()
context.select_font_face("DejaVu Sans", cairo.FONT_SLANT_NORMAL, cairo.FONT_WEIGHT_BOLD)
for size, color, x, y, text in ((16, (0.8, 0.05, 0.15), 20, 45, "No 7 Marmalade"), (6, (1, 1, 0.2), 20, 60, "Type of six points over a gradient"),
                                (5, (0.05, 0.2, 0.6), 20, 104, "Small blue type of five points on a red ground")):
    if size == 5:
        context.set_source_rgb(0.82, 0.12, 0.18)
        context.rectangle(10, 92, 180, 20)
        context.fill()
    context.set_source_rgb(*color)
    context.set_font_size(size)
    context.move_to(x, y)
    context.show_text(text)
context.set_source_rgb(0.1, 0.5, 0.25)
context.rectangle(10, 114, 180, 16)
context.fill()
context.set_source_rgb(1, 0.85, 0)
context.set_line_width(0.4)
for k in range(6):
    context.move_to(14, 117 + 2 * k)
    context.line_to(186, 117 + 2 * k)
context.stroke()
surface.finish()
