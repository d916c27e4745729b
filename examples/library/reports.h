/* SPDX-License-Identifier: Apache-2.0 */
/* The reports of windows, for the examples: their counts are added up, and written as the report of the sheet. */
#ifndef REPORTS_H
#define REPORTS_H

#include <stdio.h>
#include <string.h>

#include "trap.h"

enum { MOST_ZONES = 251 };

/* What the reports of several windows count together. */
struct sums {
  unsigned long long samples[MOST_ZONES], changed[MOST_ZONES], edges, plates[LIBTRAP_MOST_PLANES];
  int zones;
};

/* Adds a window's report, line by line. The text ends with a NUL and is cut for it. */
static inline void add_report(struct sums *sums, char *text) {
  int zone, plate = 0;
  unsigned long long samples, changed;
  for (char *line = strtok_r(text, "\n", &text); line; line = strtok_r(0, "\n", &text)) {
    if (sscanf(line, "zone %d samples %llu changed %llu", &zone, &samples, &changed) == 3) {
      sums->samples[zone] += samples, sums->changed[zone] += changed, sums->zones = zone + 1;
    } else if (sscanf(line, "edges %llu", &samples) == 1) {
      sums->edges += samples;
    } else if (sscanf(line, "plate %*s changed %llu", &changed) == 1) {
      sums->plates[plate++] += changed;
    }
  }
}

/* Adds what others have counted. */
static inline void add_sums(struct sums *sums, const struct sums *more) {
  for (int z = 0; z < MOST_ZONES; z++) sums->samples[z] += more->samples[z], sums->changed[z] += more->changed[z];
  for (int c = 0; c < LIBTRAP_MOST_PLANES; c++) sums->plates[c] += more->plates[c];
  sums->edges += more->edges;
  if (more->zones > sums->zones) sums->zones = more->zones;
}

static inline void print_sums(FILE *file, const struct sums *sums, unsigned width, unsigned height, unsigned maxval, int plates,
                              char *const *names) {
  fprintf(file, "trap report\npage %u %u %u plates %d\n", width, height, maxval, plates);
  for (int z = 0; z < sums->zones; z++) fprintf(file, "zone %d samples %llu changed %llu\n", z, sums->samples[z], sums->changed[z]);
  fprintf(file, "edges %llu\n", sums->edges);
  for (int c = 0; c < plates; c++) fprintf(file, "plate %s changed %llu\n", names[c], sums->plates[c]);
  fprintf(file, "end\n");
}

#endif
