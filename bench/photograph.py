# SPDX-License-Identifier: Apache-2.0
"""A photograph with noise all over, for the benches that measure the worst that a page may hold."""
import numpy


def photograph(width, height, seed):
    """A plate that is a photograph: soft fades, hard edges and noise."""
    rows, columns = numpy.ogrid[:height, :width]
    # Each plate's tint changes by more than the step limit at an edge, some up and some down, so that all of them are trapped.
    plain = 55 + 30 * numpy.sin(columns / (90 + 40 * seed)) * numpy.cos(rows / (130 - 20 * seed)) + 80 * ((columns // 230 + rows // 170 + seed) % 3)
    noise = numpy.random.default_rng(seed).integers(0, 17, (height, width), dtype="u1")
    return numpy.clip(plain + noise, 0, 255).astype("u1")
