/* SPDX-License-Identifier: Apache-2.0 */
/* tiles DPI JOB REPORT NAME:IN:OUT ..: what page.c does, tile by tile from four threads, as a RIP that renders in tiles may do it. DPI is
 * the job's resolution.
 *
 * The page is cut into tiles. Each tile is the core of a window of the page: around it are at least as many rows and columns of its
 * neighbours as trap_open_halo says, and so many more that the window lies on the grid of the resolution. A window reads its halo as it was
 * rendered, so each thread copies its window out of the rendered page, traps it, and puts the core into the trapped page. The counts of
 * the tiles' reports are added up. It ends with the library's status, and with 1 if a file cannot be read or written. */
#include <pthread.h>

#include "plates.h"
#include "reports.h"
#include "trap.h"
#include "windows.h"

enum { THREADS = 4, TILE = 128 }; /* on a page of 600 dpi tiles of 256 to 512 are fast */

/* What all threads share, and none writes but to its own tiles. */
struct work {
  const char *names;
  int plates;
  unsigned halo, grid;
  struct planes rendered, trapped;
};

/* What one thread makes of its tiles, with an open job of its own. */
struct share {
  const struct work *work;
  struct trap_job job;
  int first;
  trap_status status;
  char text[LIBTRAP_TEXT_SIZE];
  size_t text_len;
  struct sums sums;
};

static uint8_t *at(const struct planes *planes, int c, unsigned y, unsigned x) {
  return (uint8_t *)planes->samples + ((size_t)c * planes->height + y) * planes->width + x;
}

static unsigned least(unsigned a, unsigned b) { return a < b ? a : b; }

/* Traps the tile that begins there, in a window of its own. */
static trap_status trap_tile(struct share *share, unsigned left, unsigned top) {
  const struct work *work = share->work;
  const struct planes *page = &work->rendered;
  struct along x = columns_of(left, least(TILE, page->width - left), work->halo, work->grid, page->width);
  struct along y = rows_of(top, least(TILE, page->height - top), work->halo, work->grid, page->height);
  struct planes window = {1, 0, x.count, y.count, page->maxval, (size_t)work->plates * x.count * y.count};
  window.samples = room(window.count);
  for (int c = 0; c < work->plates; c++)
    for (unsigned row = 0; row < y.count; row++) memcpy(at(&window, c, row, 0), at(page, c, y.first + row, x.first), x.count);
  struct trap_place place = {page->width, page->height, x.first, y.first, x.core, y.core, x.core_count, y.core_count};
  trap_status status = trap_open_window8(&share->job, work->names, strlen(work->names), window.samples, window.count, window.width,
                                         window.height, window.width, window.maxval, &place, share->text, sizeof share->text - 1,
                                         &share->text_len, 0, 0);
  for (int c = 0; c < work->plates && status == LIBTRAP_DONE; c++)
    for (unsigned row = 0; row < y.core_count; row++)
      memcpy(at(&work->trapped, c, top + row, left), at(&window, c, y.core + row, x.core), x.core_count);
  free(window.samples);
  return status;
}

static void *walk(void *of) {
  struct share *share = of;
  const struct planes *page = &share->work->rendered;
  unsigned across = (page->width + TILE - 1) / TILE, down = (page->height + TILE - 1) / TILE;
  for (unsigned tile = share->first; tile < across * down; tile += THREADS) {
    share->status = trap_tile(share, tile % across * TILE, tile / across * TILE);
    if (share->status != LIBTRAP_DONE) break;
    share->text[share->text_len] = 0;
    add_report(&share->sums, share->text);
  }
  return 0;
}

static void write_report(const struct work *work, const struct share *shares, char **names, const char *name) {
  static struct sums all;
  for (int k = 0; k < THREADS; k++) add_sums(&all, &shares[k].sums);
  FILE *file = begun(name);
  print_sums(file, &all, work->rendered.width, work->rendered.height, work->rendered.maxval, work->plates, names);
  if (fclose(file)) stop(name, strerror(errno));
}

/* Opens the job for each thread, and asks one for the halo. */
static trap_status open_jobs(struct share *shares, const char *name, unsigned *halo) {
  struct bytes job = whole(name);
  trap_status status = LIBTRAP_DONE;
  for (int k = 0; k < THREADS && status == LIBTRAP_DONE; k++) {
    struct share *share = &shares[k];
    share->job = (struct trap_job)LIBTRAP_NO_JOB;
    status = k ? trap_share(&shares[0].job, &share->job, 0)
               : trap_open(job.at, job.size, &share->job, share->text, sizeof share->text, &share->text_len, 0);
    if (!k && status != LIBTRAP_DONE) fwrite(share->text, 1, share->text_len, stderr);
  }
  free(job.at);
  return status == LIBTRAP_DONE ? trap_open_halo(&shares[0].job, halo) : status;
}

/* The status of the first thread that was refused, whose line goes to standard error. */
static trap_status joined(const struct share *shares) {
  for (int k = 0; k < THREADS; k++)
    if (shares[k].status != LIBTRAP_DONE) return fwrite(shares[k].text, 1, shares[k].text_len, stderr), shares[k].status;
  return LIBTRAP_DONE;
}

int main(int count, char **words) {
  static struct share shares[THREADS];
  int dpi = count > 1 ? atoi(words[1]) : 0;
  struct work work = {.plates = count - 4, .rendered = {.bytes_each = 1}};
  if (work.plates < 1 || work.plates > LIBTRAP_MOST_PLANES || dpi < 1)
    return fprintf(stderr, "usage: tiles DPI JOB REPORT NAME:IN:OUT ..\n"), 2;
  char *outs[LIBTRAP_MOST_PLANES], *named[LIBTRAP_MOST_PLANES], names[LIBTRAP_MOST_PLANES * 65 + 1];
  work.grid = grid_of(dpi);
  read_plates(&work.rendered, work.plates, words + 4, names, named, outs);
  work.names = names, work.trapped = work.rendered;
  work.trapped.samples = room(work.trapped.count);
  trap_status status = open_jobs(shares, words[2], &work.halo);
  if (status != LIBTRAP_DONE) return status;
  pthread_t threads[THREADS];
  for (int k = 0; k < THREADS; k++) {
    shares[k].work = &work, shares[k].first = k;
    if (pthread_create(&threads[k], 0, walk, &shares[k])) stop("threads", "could not be started");
  }
  for (int k = 0; k < THREADS; k++) pthread_join(threads[k], 0), trap_close(&shares[k].job);
  status = joined(shares);
  if (status == LIBTRAP_DONE) write_report(&work, shares, named, words[3]);
  for (int c = 0; c < work.plates && status == LIBTRAP_DONE; c++) write_plate(&work.trapped, c, outs[c]);
  free(work.rendered.samples), free(work.trapped.samples);
  return status;
}
