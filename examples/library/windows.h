/* SPDX-License-Identifier: Apache-2.0 */
/* Windows of a sheet, for the examples: which columns and rows a window needs for its core. */
#ifndef WINDOWS_H
#define WINDOWS_H

/* The columns of a window, or its rows: the first on the sheet and their number; and the core's first in the window, and their number. */
struct along {
  unsigned first, count, core, core_count;
};

/* The grid of a resolution: the fewest pixels that are a whole number of ten-thousandths of a point. If the job has zones, the left and
 * the lower side of each window lie on it, counted from the sheet's lower left corner. It is 1 at 300 and 600 dpi, and 127 at 2,540. */
static inline unsigned grid_of(unsigned dpi) {
  unsigned divisor = dpi, rest = 720000 % dpi;
  while (rest) {
    unsigned next = divisor % rest;
    divisor = rest, rest = next;
  }
  return dpi / divisor;
}

static inline unsigned end_of_halo(unsigned core_end, unsigned halo, unsigned side) {
  return side - core_end > halo ? core_end + halo : side;
}

/* The columns: at least the halo on each side of the core, and from there to the left until the grid. */
static inline struct along columns_of(unsigned core, unsigned core_count, unsigned halo, unsigned grid, unsigned side) {
  unsigned first = core > halo ? (core - halo) / grid * grid : 0;
  struct along made = {first, end_of_halo(core + core_count, halo, side) - first, core - first, core_count};
  return made;
}

/* The rows: at least the halo above and below the core, and from there downwards until the grid, which is counted from below. */
static inline struct along rows_of(unsigned core, unsigned core_count, unsigned halo, unsigned grid, unsigned side) {
  unsigned first = core > halo ? core - halo : 0, below = side - end_of_halo(core + core_count, halo, side);
  struct along made = {first, side - below / grid * grid - first, core - first, core_count};
  return made;
}

#endif
