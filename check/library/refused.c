/* SPDX-License-Identifier: Apache-2.0 */
/* refused: traps a small page, and then a window, with each request for memory refused in turn. Each call has to answer LIBTRAP_MEMORY, say so and leave the
 * samples as they were, until one has all that it asks for; and what was taken is always given back. It is linked with
 * --wrap=malloc, --wrap=realloc and --wrap=free. */
#include <stdio.h>
#include <stdlib.h>
#include <string.h>

#include "trap.h"

enum { WIDTH = 12, HEIGHT = 5, PLANES = 2, SAMPLES = PLANES * WIDTH * HEIGHT, MOST = 100000 };

static long asked, refused = -1, held;

/* Where the window stands, on a sheet of twice its width; 0 for a page. */
static const struct trap_place window = {2 * WIDTH, HEIGHT, 0, 0, 0, 0, WIDTH - 6, HEIGHT};
static const struct trap_place *place;

void *__real_malloc(size_t size);
void *__real_realloc(void *old, size_t size);
void __real_free(void *old);

void *__wrap_malloc(size_t size) {
  if (asked++ == refused) return 0;
  held++;
  return __real_malloc(size);
}

void *__wrap_realloc(void *old, size_t size) {
  if (asked++ == refused) return 0;
  if (!old) held++;
  return __real_realloc(old, size);
}

void __wrap_free(void *old) {
  if (old) held--;
  __real_free(old);
}

static const char job[] =
    "<< /HWResolution [600 600] /TrappingDetails << /Type 1001 /ColorantDetails << /Cyan << /NeutralDensity 0.61 >> "
    "/Magenta << /NeutralDensity 0.76 >> >> >> >> setpagedevice << /TrapWidth 0.5 >> settrapparams "
    "0 0 moveto 1 0 lineto 1 1 lineto 0 1 lineto settrapzone showpage";

/* 0 where the call is as it has to be after the refusal of one request, 1 where it went through, 2 where it is wrong. */
static int judged(const uint16_t *before) {
  uint16_t samples[SAMPLES];
  static char text[LIBTRAP_TEXT_SIZE];
  size_t text_len = 0;
  memcpy(samples, before, sizeof samples);
  asked = held = 0;
  const char *told = job, *names = "Cyan\nMagenta";
  trap_status status = place ? trap_window16(told, sizeof job - 1, names, 12, samples, SAMPLES, WIDTH, HEIGHT, WIDTH, 255, place, text,
                                             sizeof text, &text_len)
                             : trap_planes16(told, sizeof job - 1, names, 12, samples, SAMPLES, WIDTH, HEIGHT, WIDTH, 255, text,
                                             sizeof text, &text_len);
  if (held) return printf("request %ld refused: %ld blocks were not given back\n", refused, held), 2;
  if (status == LIBTRAP_DONE) return asked == refused && memcmp(samples, before, sizeof samples) ? 1 : 2;
  int is_right = status == LIBTRAP_MEMORY && text_len == 14 && !memcmp(text, "out of memory\n", 14) && !memcmp(samples, before, sizeof samples);
  if (!is_right) printf("request %ld refused: status %d, %.*s\n", refused, status, (int)text_len, text);
  return is_right ? 0 : 2;
}

/* 0 where each request is refused as it has to be, by the calls of one kind. */
static int all_refused(const uint16_t *before, const char *kind) {
  for (refused = 0; refused < MOST; refused++) {
    int answer = judged(before);
    if (answer == 2) return 1;
    if (answer == 1) return printf("library: %s: %ld requests for memory, each refused in turn, as it has to be\n", kind, refused), 0;
  }
  return 1;
}

int main(void) {
  uint16_t before[SAMPLES];
  for (int k = 0; k < SAMPLES; k++) before[k] = (k % WIDTH < 4) == (k < SAMPLES / 2) ? 255 : 0;
  int is_wrong = all_refused(before, "a page");
  place = &window;
  return all_refused(before, "a window") | is_wrong;
}
