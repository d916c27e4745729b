/* SPDX-License-Identifier: Apache-2.0 */
/* bands DPI JOB REPORT NAME:IN:OUT ..: what page.c does, band by band from the top, with the memory of a band. The plates are raw PGM
 * files of one byte a sample, and DPI is the job's resolution.
 *
 * Each row is read once, as a RIP renders it once. The rows that a band shares with the next one, its halo, are kept as they were read:
 * a band is trapped in a copy. The job is opened once for all bands. Each band's core is written at once, so a refusal in a later band leaves the rows before it in the files.
 * A sheet that is wider than 16,384 pixels is cut into tiles, as in tiles.c. It ends with the library's status, and with 1 if a file
 * cannot be read or written. */
#include "plates.h"
#include "reports.h"
#include "trap.h"
#include "windows.h"

enum { BAND = 64 }; /* rows of a core; the memory is that of BAND and two halos, and at odd resolutions of a step of the grid */

/* A sheet on its way from its files to others, with the rows that are held of it. */
struct sheet {
  struct trap_job job;
  char names[LIBTRAP_MOST_PLANES * 65 + 1], *named[LIBTRAP_MOST_PLANES], *outs[LIBTRAP_MOST_PLANES];
  FILE *from[LIBTRAP_MOST_PLANES], *to[LIBTRAP_MOST_PLANES];
  int plates;
  unsigned width, height, maxval, halo, grid;
  uint8_t *rendered; /* `most` rows of each plate, of which `held` are in use: those of the sheet from `first` on */
  uint8_t *window;   /* as many, without gaps between the plates */
  unsigned most, first, held;
  char text[LIBTRAP_TEXT_SIZE];
  size_t text_len;
  struct sums sums;
};

static uint8_t *row_of(const struct sheet *sheet, int c, unsigned row) {
  return sheet->rendered + ((size_t)c * sheet->most + row - sheet->first) * sheet->width;
}

static uint8_t *window_row(const struct sheet *sheet, int c, unsigned rows, unsigned row) {
  return sheet->window + ((size_t)c * rows + row) * sheet->width;
}

/* Opens a plate. The first one gives the sides of all. */
static void open_plate(struct sheet *sheet, int c, const char *name) {
  unsigned width, height, maxval;
  FILE *from = sheet->from[c] = fopen(name, "rb");
  if (!from) stop(name, strerror(errno));
  if (fscanf(from, "P5 %u %u %u", &width, &height, &maxval) != 3 || fgetc(from) == EOF) stop(name, "is no raw PGM file");
  if (c == 0) sheet->width = width, sheet->height = height, sheet->maxval = maxval;
  if (width != sheet->width || height != sheet->height || maxval != sheet->maxval) stop(name, "is of other sides or another maxval");
  if (maxval > 255) stop(name, "has samples of two bytes");
}

/* Lets the rows before this one go. */
static void drop_rows(struct sheet *sheet, unsigned first) {
  unsigned kept = sheet->first + sheet->held - first;
  for (int c = 0; c < sheet->plates; c++) memmove(row_of(sheet, c, sheet->first), row_of(sheet, c, first), (size_t)kept * sheet->width);
  sheet->first = first, sheet->held = kept;
}

/* Reads the rows before this one that are not held yet. In a file 0 is full ink. */
static void render_rows(struct sheet *sheet, unsigned end) {
  for (unsigned row = sheet->first + sheet->held; row < end; row++)
    for (int c = 0; c < sheet->plates; c++) {
      uint8_t *samples = row_of(sheet, c, row);
      if (fread(samples, 1, sheet->width, sheet->from[c]) != sheet->width) stop(sheet->named[c], "the plate is too short");
      for (unsigned x = 0; x < sheet->width; x++) samples[x] = (uint8_t)(sheet->maxval - samples[x]);
    }
  sheet->held = end - sheet->first;
}

/* Writes the core of the window. */
static void write_core(struct sheet *sheet, struct along rows) {
  for (unsigned row = rows.core; row < rows.core + rows.core_count; row++)
    for (int c = 0; c < sheet->plates; c++) {
      uint8_t *samples = window_row(sheet, c, rows.count, row);
      for (unsigned x = 0; x < sheet->width; x++) samples[x] = (uint8_t)(sheet->maxval - samples[x]);
      if (fwrite(samples, 1, sheet->width, sheet->to[c]) != sheet->width) stop(sheet->outs[c], strerror(errno));
    }
}

/* Traps the band that begins at this row, and writes it. */
static trap_status trap_band(struct sheet *sheet, unsigned top) {
  unsigned count = sheet->height - top < BAND ? sheet->height - top : BAND;
  struct along rows = rows_of(top, count, sheet->halo, sheet->grid, sheet->height);
  drop_rows(sheet, rows.first);
  render_rows(sheet, rows.first + rows.count);
  for (int c = 0; c < sheet->plates; c++)
    memcpy(window_row(sheet, c, rows.count, 0), row_of(sheet, c, rows.first), (size_t)rows.count * sheet->width);
  struct trap_place place = {sheet->width, sheet->height, 0, rows.first, 0, rows.core, sheet->width, rows.core_count};
  trap_status status = trap_open_window8(&sheet->job, sheet->names, strlen(sheet->names), sheet->window,
                                         (size_t)sheet->plates * rows.count * sheet->width, sheet->width, rows.count, sheet->width,
                                         sheet->maxval, &place, sheet->text, sizeof sheet->text - 1, &sheet->text_len, 0, 0);
  if (status != LIBTRAP_DONE) return status;
  write_core(sheet, rows);
  sheet->text[sheet->text_len] = 0;
  add_report(&sheet->sums, sheet->text);
  return status;
}

/* Makes room for the largest window, and traps all bands. */
static trap_status trap_sheet(struct sheet *sheet) {
  size_t most = (size_t)BAND + 2 * (size_t)sheet->halo + sheet->grid;
  sheet->most = most < sheet->height ? most : sheet->height;
  sheet->rendered = room((size_t)sheet->plates * sheet->most * sheet->width);
  sheet->window = room((size_t)sheet->plates * sheet->most * sheet->width);
  trap_status status = LIBTRAP_DONE;
  for (unsigned top = 0; top < sheet->height && status == LIBTRAP_DONE; top += BAND) status = trap_band(sheet, top);
  free(sheet->rendered), free(sheet->window);
  return status;
}

/* Opens the job, and asks for its halo. */
static trap_status open_job(struct sheet *sheet, const char *name) {
  struct bytes job = whole(name);
  trap_status status = trap_open(job.at, job.size, &sheet->job, sheet->text, sizeof sheet->text, &sheet->text_len, 0);
  free(job.at);
  return status == LIBTRAP_DONE ? trap_open_halo(&sheet->job, &sheet->halo) : status;
}

static void open_all(struct sheet *sheet, char **words) {
  for (int c = 0; c < sheet->plates; c++) {
    const char *in = cut_word(words[c], sheet->names, &sheet->named[c], &sheet->outs[c]);
    open_plate(sheet, c, in);
  }
  for (int c = 0; c < sheet->plates; c++) {
    sheet->to[c] = begun(sheet->outs[c]);
    fprintf(sheet->to[c], "P5\n%u %u\n%u\n", sheet->width, sheet->height, sheet->maxval);
  }
}

static void close_all(struct sheet *sheet) {
  for (int c = 0; c < sheet->plates; c++) {
    fclose(sheet->from[c]);
    if (fclose(sheet->to[c])) stop(sheet->outs[c], strerror(errno));
  }
}

int main(int count, char **words) {
  static struct sheet sheet = {.job = LIBTRAP_NO_JOB};
  int dpi = count > 1 ? atoi(words[1]) : 0;
  sheet.plates = count - 4;
  if (sheet.plates < 1 || sheet.plates > LIBTRAP_MOST_PLANES || dpi < 1)
    return fprintf(stderr, "usage: bands DPI JOB REPORT NAME:IN:OUT ..\n"), 2;
  sheet.grid = grid_of(dpi);
  trap_status status = open_job(&sheet, words[2]);
  if (status == LIBTRAP_DONE) {
    open_all(&sheet, words + 4);
    status = trap_sheet(&sheet);
    close_all(&sheet);
  }
  trap_close(&sheet.job);
  if (status != LIBTRAP_DONE) return fwrite(sheet.text, 1, sheet.text_len, stderr), status;
  FILE *report = begun(words[3]);
  print_sums(report, &sheet.sums, sheet.width, sheet.height, sheet.maxval, sheet.plates, sheet.named);
  return fclose(report) ? 1 : 0;
}
