/* SPDX-License-Identifier: Apache-2.0 */
/* page [-8] JOB REPORT NAME:IN:OUT ..: what `trap page JOB REPORT NAME:IN:OUT ..` does, by one call of the library. The plates are raw
 * PGM files, in which 0 is full ink. With -8 the planes are held as bytes, else as 16-bit numbers. It ends with the library's
 * status, and with 1 where a file cannot be read or written. */
#include <time.h>

#include "plates.h"
#include "trap.h"

static double seconds(clockid_t which) {
  struct timespec at;
  clock_gettime(which, &at);
  return at.tv_sec + at.tv_nsec / 1e9;
}

static trap_status trapped(struct planes *p, const struct bytes *job, const char *names, char *text, size_t *text_len) {
  if (p->bytes_each == 1)
    return trap_planes8(job->at, job->size, names, strlen(names), p->samples, p->count, p->width, p->height, p->width, p->maxval,
                        text, LIBTRAP_TEXT_SIZE, text_len);
  return trap_planes16(job->at, job->size, names, strlen(names), p->samples, p->count, p->width, p->height, p->width, p->maxval,
                       text, LIBTRAP_TEXT_SIZE, text_len);
}

/* The same, and where the environment has PAGE_TIMES it tells how long the call took. */
static trap_status timed(struct planes *planes, const struct bytes *job, const char *names, char *text, size_t *text_len) {
  double from = seconds(CLOCK_MONOTONIC), worked = seconds(CLOCK_PROCESS_CPUTIME_ID);
  trap_status status = trapped(planes, job, names, text, text_len);
  if (getenv("PAGE_TIMES"))
    fprintf(stderr, "page: the call took %.3f s, %.3f s of the processor\n", seconds(CLOCK_MONOTONIC) - from,
            seconds(CLOCK_PROCESS_CPUTIME_ID) - worked);
  return status;
}

int main(int count, char **words) {
  int narrow = count > 1 && !strcmp(words[1], "-8"), plates = count - 3 - narrow;
  if (plates < 1 || plates > LIBTRAP_MOST_PLANES) return fprintf(stderr, "usage: page [-8] JOB REPORT NAME:IN:OUT ..\n"), 2;
  words += narrow;
  struct planes planes = {.bytes_each = narrow ? 1 : 2};
  struct bytes job = whole(words[1]);
  char *outs[LIBTRAP_MOST_PLANES], *named[LIBTRAP_MOST_PLANES], names[LIBTRAP_MOST_PLANES * 65 + 1];
  read_plates(&planes, plates, words + 3, names, named, outs);
  static char text[LIBTRAP_TEXT_SIZE];
  size_t text_len = 0;
  trap_status status = timed(&planes, &job, names, text, &text_len);
  for (int c = 0; c < plates && status == LIBTRAP_DONE; c++) write_plate(&planes, c, outs[c]);
  FILE *told = status == LIBTRAP_DONE ? begun(words[2]) : stderr;
  fwrite(text, 1, text_len, told);
  free(planes.samples), free(job.at);
  return told != stderr && fclose(told) ? 1 : status;
}
