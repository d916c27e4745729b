/* SPDX-License-Identifier: Apache-2.0 */
/* handle: opens a job with each request for memory refused in turn; then traps windows by the open job, again and again and after
 * calls that were refused, each as trap_window16 does with the job's bytes; and closes it. What was taken is always given back. It is
 * linked with --wrap=malloc, --wrap=realloc and --wrap=free. */
#include <stdio.h>
#include <stdlib.h>
#include <string.h>

#include "trap.h"

enum { WIDTH = 12, HEIGHT = 5, PLANES = 2, SAMPLES = PLANES * WIDTH * HEIGHT, MOST = 100000 };

static long asked, refused = -1, held;

void *__real_malloc(size_t size);
void *__real_realloc(void *old, size_t size);
void __real_free(void *old);

void *__wrap_malloc(size_t size) {
  if (asked++ == refused) return 0;
  held++;
  return __real_malloc(size);
}

void *__wrap_realloc(void *old, size_t size) {
  if (asked++ == refused) return 0;
  if (!old) held++;
  return __real_realloc(old, size);
}

void __wrap_free(void *old) {
  if (old) held--;
  __real_free(old);
}

static const char job[] =
    "<< /HWResolution [600 600] /TrappingDetails << /Type 1001 /ColorantDetails << /Cyan << /NeutralDensity 0.61 >> "
    "/Magenta << /NeutralDensity 0.76 >> >> >> >> setpagedevice << /TrapWidth 0.5 >> settrapparams "
    "0 0 moveto 1 0 lineto 1 1 lineto 0 1 lineto settrapzone showpage";
static const char names[] = "Cyan\nMagenta";
static char text[LIBTRAP_TEXT_SIZE], other_text[LIBTRAP_TEXT_SIZE];
static size_t text_len, other_len;

static void want(const char *what, int is_right) {
  if (is_right) return;
  fprintf(stderr, "handle: %s; %.*s\n", what, (int)text_len, text);
  exit(1);
}

/* Opens the job with each request for memory refused in turn, until one has all. */
static void open_job(struct trap_job *handle) {
  trap_status status = LIBTRAP_MEMORY;
  struct trap_error error = LIBTRAP_NO_ERROR;
  for (refused = 0; refused < MOST && status == LIBTRAP_MEMORY; refused++) {
    asked = held = 0;
    status = trap_open(job, sizeof job - 1, handle, text, sizeof text, &text_len, &error);
    if (status != LIBTRAP_MEMORY) continue;
    want("a refused request leaves the handle closed and keeps nothing", !handle->is_open && !held);
    want("and it is said", error.status == LIBTRAP_MEMORY && error.kind == LIBTRAP_KIND_OUT_OF_MEMORY);
  }
  refused = -1;
  want("nothing is said of no error", !error.status && error.kind == LIBTRAP_KIND_NONE && error.offset == LIBTRAP_NO_OFFSET);
  want("the job is opened", status == LIBTRAP_DONE && handle->is_open && !text_len);
}

/* A window by the open job, and one by the job's bytes. */
static void compare_windows(struct trap_job *handle, const uint16_t *before, const struct trap_place *place, int k) {
  struct trap_report report = LIBTRAP_NO_REPORT;
  uint16_t samples[SAMPLES], others[SAMPLES];
  struct trap_error error = LIBTRAP_NO_ERROR;
  memcpy(samples, before, sizeof samples), memcpy(others, before, sizeof others);
  trap_status status = trap_open_window16(handle, names, sizeof names - 1, samples, SAMPLES, WIDTH, HEIGHT, WIDTH, 255, place, text,
                                          sizeof text, &text_len, k % 2 ? &report : 0, &error);
  trap_status other = trap_window16(job, sizeof job - 1, names, sizeof names - 1, others, SAMPLES, WIDTH, HEIGHT, WIDTH, 255, place,
                                    other_text, sizeof other_text, &other_len);
  want("the open job gives the status of its bytes", status == other && error.status == status);
  want("and the kind of its line", error.kind == (status == LIBTRAP_DONE ? LIBTRAP_KIND_NONE : LIBTRAP_KIND_PLACE));
  want("and their samples", !memcmp(samples, others, sizeof samples));
  want("and their text", text_len == other_len && !memcmp(text, other_text, text_len));
}

/* The figures of the open job; a struct of another size, or a job that is not open, changes none. */
static void compare_figures(struct trap_job *handle, uint32_t halo) {
  struct trap_job none = LIBTRAP_NO_JOB;
  struct trap_error error = LIBTRAP_NO_ERROR;
  struct trap_info info = {sizeof info, 1, 1, 1, 1, 1, 1}, was = info;
  want("a job that is not open has no figures", trap_job_info(&none, &info, &error) == LIBTRAP_CALL && !memcmp(&info, &was, sizeof info));
  want("for that reason", error.kind == LIBTRAP_KIND_HANDLE);
  want("no job", trap_job_info(0, &info, &error) == LIBTRAP_CALL && error.kind == LIBTRAP_KIND_NULL && trap_job_info(handle, 0, 0));
  was.size = info.size = sizeof info - 8;
  want("the struct has its size", trap_job_info(&none, &info, &error) == LIBTRAP_CALL && !memcmp(&info, &was, sizeof info));
  want("which comes first", error.kind == LIBTRAP_KIND_SIZE);
  info.size = sizeof info;
  want("an open job has figures", trap_job_info(handle, &info, 0) == LIBTRAP_DONE && info.size == sizeof info);
  want("and they are the job's", info.resolution == 600 && info.halo == halo && info.corner_step == 1 && info.reach == 8 &&
                                     info.zones == 2 && info.inks == 2);
}

/* Opens the job once more with each request for memory refused in turn. */
static void share_job(struct trap_job *handle, struct trap_job *other) {
  struct trap_error error = LIBTRAP_NO_ERROR;
  trap_status status = LIBTRAP_MEMORY;
  long kept = held;
  for (refused = 0; refused < MOST && status == LIBTRAP_MEMORY; refused++) {
    asked = 0;
    status = trap_share(handle, other, &error);
    if (status == LIBTRAP_MEMORY) want("a refused request opens nothing", !other->is_open && held == kept && error.kind == LIBTRAP_KIND_OUT_OF_MEMORY);
  }
  refused = -1;
  want("the job is shared", status == LIBTRAP_DONE && other->is_open && handle->is_open && held == 2 * kept);
}

int main(void) {
  struct trap_job handle = LIBTRAP_NO_JOB, shared = LIBTRAP_NO_JOB, other_handle = LIBTRAP_NO_JOB;
  struct trap_place place = {2 * WIDTH, HEIGHT, 0, 0, 0, 0, WIDTH - 6, HEIGHT};
  uint16_t before[SAMPLES];
  uint32_t halo = 0, other = 1;
  for (int k = 0; k < SAMPLES; k++) before[k] = (k % WIDTH < 4) == (k < SAMPLES / 2) ? 255 : 0;
  want("a handle that is not open has no halo", trap_open_halo(&handle, &halo) == LIBTRAP_CALL && !halo);
  open_job(&handle);
  long kept = held;
  want("an open handle is not opened again", trap_open(job, 4, &handle, text, sizeof text, &text_len, 0) == LIBTRAP_CALL && handle.is_open);
  want("the halo is that of the bytes", trap_open_halo(&handle, &halo) == LIBTRAP_DONE &&
                                            !trap_halo(job, sizeof job - 1, &other, text, sizeof text, &text_len) && halo == other);
  compare_figures(&handle, halo);
  for (int k = 0; k < 8; k++) {
    place.core_width = k % 3 ? WIDTH - 6 : 2 * WIDTH, place.left = k % 2 ? WIDTH : 0, place.core_left = k % 2 ? 6 : 0;
    compare_windows(&handle, before, &place, k);
  }
  want("windows keep no memory", held == kept);
  share_job(&handle, &shared);
  compare_figures(&shared, halo);
  want("a handle that is open is not shared into", trap_share(&handle, &shared, 0) == LIBTRAP_CALL && shared.is_open);
  trap_close(&handle), trap_close(&handle);
  want("the other handle keeps what the first kept", held == kept && shared.is_open && !handle.is_open);
  for (int k = 0; k < 4; k++) compare_windows(&shared, before, &place, k);
  want("a handle that is not open is not shared", trap_share(&handle, &other_handle, 0) == LIBTRAP_CALL && !other_handle.is_open);
  trap_close(&shared);
  want("a closed handle keeps nothing", !held && !handle.is_open);
  printf("library: an open job gives what its bytes give, and keeps nothing once it is closed\n");
  return 0;
}
