/* SPDX-License-Identifier: Apache-2.0 */
/* threads [PAGES]: eight threads trap pages at once, each its own, by the calls of a page, of a window, and of a window by an open job,
 * one for each thread; each has to come out as it does alone. */
#include <pthread.h>
#include <stdio.h>
#include <stdlib.h>
#include <string.h>

#include "trap.h"

enum { WIDTH = 40, HEIGHT = 24, PLANES = 4, SAMPLES = PLANES * WIDTH * HEIGHT, THREADS = 8, MOST_PAGES = 64 };

static const char job[] =
    "<< /HWResolution [600 600] /TrappingDetails << /Type 1001 /ColorantDetails << /Cyan << /NeutralDensity 0.61 >> "
    "/Magenta << /NeutralDensity 0.76 >> /Yellow << /NeutralDensity 0.16 >> /Black << /NeutralDensity 1.70 >> >> >> >> setpagedevice "
    "<< /TrapWidth 0.5 /BlackWidth 2 >> settrapparams showpage";
static const char names[] = "Cyan\nMagenta\nYellow\nBlack";

/* A page after a call. */
struct answer {
  trap_status status;
  uint16_t samples[SAMPLES];
  size_t text_len;
  char text[1024];
};

static struct answer alone[MOST_PAGES], together[MOST_PAGES];
static int pages = 16;

/* Blocks of five by five samples in the colours of a page's number. */
static void draw(uint16_t *samples, unsigned page) {
  for (int k = 0; k < SAMPLES; k++) {
    unsigned x = k % WIDTH / 5, y = k / WIDTH % HEIGHT / 5, c = k / (WIDTH * HEIGHT);
    unsigned mixed = (x * 7 + y * 13 + c * 29 + page * 31 + x * y * page) % 5;
    samples[k] = (uint16_t)(mixed < 2 ? 0 : mixed == 2 ? 128 : 255);
  }
}

static const char *const told = job, *const listed = names;

static trap_status by_words(struct answer *answer, const struct trap_place *place, struct trap_job *handle) {
  if (handle)
    return trap_open_window16(handle, listed, sizeof names - 1, answer->samples, SAMPLES, WIDTH, HEIGHT, WIDTH, 255, place,
                              answer->text, sizeof answer->text, &answer->text_len, 0, 0);
  if (!place)
    return trap_planes16(told, sizeof job - 1, listed, sizeof names - 1, answer->samples, SAMPLES, WIDTH, HEIGHT, WIDTH, 255,
                         answer->text, sizeof answer->text, &answer->text_len);
  return trap_window16(told, sizeof job - 1, listed, sizeof names - 1, answer->samples, SAMPLES, WIDTH, HEIGHT, WIDTH, 255, place,
                       answer->text, sizeof answer->text, &answer->text_len);
}

static trap_status by_bytes(struct answer *answer, const struct trap_place *place, struct trap_job *handle) {
  uint8_t bytes[SAMPLES];
  for (int k = 0; k < SAMPLES; k++) bytes[k] = (uint8_t)answer->samples[k];
  trap_status status =
      handle  ? trap_open_window8(handle, listed, sizeof names - 1, bytes, SAMPLES, WIDTH, HEIGHT, WIDTH, 255, place, answer->text,
                                  sizeof answer->text, &answer->text_len, 0, 0)
      : place ? trap_window8(told, sizeof job - 1, listed, sizeof names - 1, bytes, SAMPLES, WIDTH, HEIGHT, WIDTH, 255, place,
                           answer->text, sizeof answer->text, &answer->text_len)
            : trap_planes8(told, sizeof job - 1, listed, sizeof names - 1, bytes, SAMPLES, WIDTH, HEIGHT, WIDTH, 255, answer->text,
                           sizeof answer->text, &answer->text_len);
  for (int k = 0; k < SAMPLES; k++) answer->samples[k] = bytes[k];
  return status;
}

/* Even pages are held as 16-bit numbers, odd ones as bytes. Of each eight, two are windows of a sheet, with the halo that is told, and
 * two are such windows by the open job. */
static void trap_page(struct answer *answer, int page, struct trap_job *handle) {
  draw(answer->samples, page);
  uint32_t halo = 0;
  answer->status = trap_halo(told, sizeof job - 1, &halo, answer->text, sizeof answer->text, &answer->text_len);
  if (answer->status) return;
  struct trap_place window = {1000, 1000, 300, 400, halo, halo, WIDTH - 2 * halo, HEIGHT - 2 * halo};
  const struct trap_place *place = page / 2 % 2 ? &window : 0;
  if (!place || page / 4 % 2) handle = 0;
  answer->status = page % 2 ? by_bytes(answer, place, handle) : by_words(answer, place, handle);
}

/* Traps every so many of the pages, by an open job of its own. */
static void trap_pages(struct answer *answers, int first, int step) {
  struct trap_job handle = LIBTRAP_NO_JOB;
  struct answer *answer = &answers[first];
  if (trap_open(told, sizeof job - 1, &handle, answer->text, sizeof answer->text, &answer->text_len, 0)) return;
  for (int page = first; page < pages; page += step) trap_page(&answers[page], page, &handle);
  trap_close(&handle);
}

static void *walk(void *first) {
  trap_pages(together, (int)(size_t)first, THREADS);
  return 0;
}

int main(int count, char **words) {
  if (count > 1) pages = atoi(words[1]);
  if (pages < THREADS || pages > MOST_PAGES) return 2;
  pthread_t threads[THREADS];
  for (size_t k = 0; k < THREADS; k++)
    if (pthread_create(&threads[k], 0, walk, (void *)k)) return 2;
  for (int k = 0; k < THREADS; k++) pthread_join(threads[k], 0);
  trap_pages(alone, 0, 1);
  for (int page = 0; page < pages; page++) {
    uint16_t before[SAMPLES];
    draw(before, page);
    if (alone[page].status || !memcmp(before, alone[page].samples, sizeof before) || memcmp(&alone[page], &together[page], sizeof alone[page]))
      return printf("page %d is another by eight threads\n", page), 1;
  }
  printf("library: %d pages by eight threads at once, each as it is alone\n", pages);
  return 0;
}
