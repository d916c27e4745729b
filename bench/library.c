/* SPDX-License-Identifier: Apache-2.0 */
/* library BANDS JOB NAME:IN ..: traps a page of PGM files in memory, by one call of a page where BANDS is 0, else from so many threads,
 * each a band of the page by one call of a window. It prints the seconds that passed while it trapped, and those that processors
 * worked. Each thread copies its window before the clock starts, as a RIP renders it. */
#include <pthread.h>
#include <time.h>

#include "plates.h"
#include "trap.h"

enum { MOST_BANDS = 64 };

struct band {
  const struct bytes *job;
  const char *names;
  struct planes window;
  struct trap_place place;
  trap_status status;
  char text[LIBTRAP_TEXT_SIZE];
  size_t text_len;
};

static double seconds(clockid_t which) {
  struct timespec at;
  clock_gettime(which, &at);
  return at.tv_sec + at.tv_nsec / 1e9;
}

static void *trap_band(void *of) {
  struct band *band = of;
  struct planes *p = &band->window;
  band->status = trap_window8(band->job->at, band->job->size, band->names, strlen(band->names), p->samples, p->count,
                              p->width, p->height, p->width, p->maxval, &band->place, band->text, sizeof band->text, &band->text_len);
  return 0;
}

/* The window of band k of so many, copied out of the page. */
static void cut(struct band *band, const struct planes *page, int plates, int k, int bands, unsigned halo) {
  unsigned from = (unsigned)((size_t)page->height * k / bands), to = (unsigned)((size_t)page->height * (k + 1) / bands);
  unsigned top = from > halo ? from - halo : 0, end = page->height - to > halo ? to + halo : page->height;
  size_t size = (size_t)page->width * (end - top);
  band->window = (struct planes){1, room(plates * size), page->width, end - top, page->maxval, plates * size};
  for (int c = 0; c < plates; c++)
    memcpy((uint8_t *)band->window.samples + c * size, (uint8_t *)page->samples + ((size_t)c * page->height + top) * page->width, size);
  band->place = (struct trap_place){page->width, page->height, 0, top, 0, from - top, page->width, to - from};
}

static trap_status trap_bands(struct band *bands, int count) {
  pthread_t threads[MOST_BANDS];
  for (int k = 0; k < count; k++)
    if (pthread_create(&threads[k], 0, trap_band, &bands[k])) stop("threads", "could not be started");
  for (int k = 0; k < count; k++) pthread_join(threads[k], 0);
  for (int k = 0; k < count; k++)
    if (bands[k].status != LIBTRAP_DONE) return fwrite(bands[k].text, 1, bands[k].text_len, stderr), bands[k].status;
  return LIBTRAP_DONE;
}

int main(int count, char **words) {
  static struct band bands[MOST_BANDS];
  static char text[LIBTRAP_TEXT_SIZE];
  size_t text_len = 0;
  int asked = count > 3 ? atoi(words[1]) : -1, plates = count - 3;
  if (asked < 0 || asked > MOST_BANDS || plates > LIBTRAP_MOST_PLANES) return fprintf(stderr, "usage: library BANDS JOB NAME:IN: ..\n"), 2;
  struct planes page = {.bytes_each = 1};
  struct bytes job = whole(words[2]);
  char *outs[LIBTRAP_MOST_PLANES], *named[LIBTRAP_MOST_PLANES], names[LIBTRAP_MOST_PLANES * 65 + 1];
  read_plates(&page, plates, words + 3, names, named, outs);
  unsigned halo = 0;
  if (trap_halo(job.at, job.size, &halo, text, sizeof text, &text_len)) return fwrite(text, 1, text_len, stderr), 1;
  for (int k = 0; k < asked; k++) bands[k].job = &job, bands[k].names = names, cut(&bands[k], &page, plates, k, asked, halo);
  double from = seconds(CLOCK_MONOTONIC), worked = seconds(CLOCK_PROCESS_CPUTIME_ID);
  trap_status status = asked ? trap_bands(bands, asked)
                             : trap_planes8(job.at, job.size, names, strlen(names), page.samples, page.count, page.width,
                                            page.height, page.width, page.maxval, text, sizeof text, &text_len);
  printf("%.3f %.3f\n", seconds(CLOCK_MONOTONIC) - from, seconds(CLOCK_PROCESS_CPUTIME_ID) - worked);
  return status;
}
