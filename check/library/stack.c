/* SPDX-License-Identifier: Apache-2.0 */
/* stack: each export of the library, from a thread whose stack has 65,536 bytes, over a page of sixteen planes with zones, and over
 * one whose job has a fault. A call that needed more would end the process. */
#include <limits.h>
#include <pthread.h>
#include <stdio.h>
#include <stdlib.h>
#include <string.h>

#include "trap.h"

enum { WIDTH = 96, HEIGHT = 64, PLANES = LIBTRAP_MOST_PLANES, SAMPLES = PLANES * WIDTH * HEIGHT, STACK = 65536, ZONES = 60 };

/* The job has a detail for each plane and ZONES squares, each its own zone. */
static char job[16384], names[256];
static uint8_t bytes[SAMPLES];
static char text[LIBTRAP_TEXT_SIZE];
static uint16_t words[SAMPLES];
static const struct trap_place place = {WIDTH, HEIGHT, 0, 0, 0, 0, WIDTH, HEIGHT};

static void write_job(void) {
  char *at = job;
  at += sprintf(at, "<< /HWResolution [600 600] /TrappingDetails << /Type 1001 /ColorantDetails << ");
  for (int k = 0; k < PLANES; k++) {
    at += sprintf(at, "/Ink%d << /NeutralDensity %d.%d >> ", k, k / 8, k % 8 + 1);
    sprintf(names + strlen(names), "%sInk%d", k ? "\n" : "", k);
  }
  at += sprintf(at, ">> >> >> setpagedevice << /TrapWidth 0.5 /BlackWidth 2 >> settrapparams ");
  for (int z = 0; z < ZONES; z++)
    at += sprintf(at, "%d %d moveto %d %d lineto %d %d lineto %d %d lineto closepath settrapzone ", z % 10, z / 10, z % 10 + 2, z / 10,
                  z % 10 + 2, z / 10 + 2, z % 10, z / 10 + 2);
  sprintf(at, "showpage");
}

static void draw(void) {
  for (int k = 0; k < SAMPLES; k++) {
    unsigned x = k % WIDTH / 5, y = k / WIDTH % HEIGHT / 5, c = k / (WIDTH * HEIGHT);
    words[k] = bytes[k] = (uint8_t)((x * 7 + y * 13 + c * 29) % 5 < 2 ? 0 : 255);
  }
}

static void want(const char *call, trap_status status, trap_status wanted) {
  if (status == wanted) return;
  printf("stack: %s answers %d, and not %d: %.200s\n", call, status, wanted, text);
  exit(1);
}

/* The exports for an open job. One whose bytes have a fault is not opened. */
static void call_opened(size_t size, const char *listed, size_t count, trap_status wanted) {
  struct trap_job handle = LIBTRAP_NO_JOB, other = LIBTRAP_NO_JOB;
  trap_status then = wanted == LIBTRAP_DONE ? LIBTRAP_DONE : LIBTRAP_CALL;
  struct trap_info info = LIBTRAP_NO_INFO;
  struct trap_error error = LIBTRAP_NO_ERROR;
  struct trap_report report = LIBTRAP_NO_REPORT;
  size_t len;
  uint32_t halo;
  want("trap_open", trap_open(job, size, &handle, text, sizeof text, &len, &error), wanted);
  want("trap_open_halo", trap_open_halo(&handle, &halo), then);
  want("trap_job_info", trap_job_info(&handle, &info, &error), then);
  want("trap_open_window8",
       trap_open_window8(&handle, listed, count, bytes, SAMPLES, WIDTH, HEIGHT, WIDTH, 255, &place, text, sizeof text, &len, &report,
                         &error),
       then);
  want("trap_open_window16",
       trap_open_window16(&handle, listed, count, words, SAMPLES, WIDTH, HEIGHT, WIDTH, 255, &place, text, sizeof text, &len, &report,
                         &error),
       then);
  want("trap_share", trap_share(&handle, &other, &error), then);
  trap_close(&handle);
  trap_close(&other);
}

/* All exports, with so many bytes of the job; cut short it has a fault. */
static void *call_all(void *given) {
  size_t size = *(size_t *)given, count = strlen(names), len;
  const char *told = job, *listed = names;
  trap_status wanted = size == strlen(job) ? LIBTRAP_DONE : LIBTRAP_JOB;
  uint32_t halo;
  draw();
  want("trap_planes8", trap_planes8(told, size, listed, count, bytes, SAMPLES, WIDTH, HEIGHT, WIDTH, 255, text, sizeof text, &len),
       wanted);
  want("trap_planes16", trap_planes16(told, size, listed, count, words, SAMPLES, WIDTH, HEIGHT, WIDTH, 255, text, sizeof text, &len),
       wanted);
  want("trap_window8",
       trap_window8(told, size, listed, count, bytes, SAMPLES, WIDTH, HEIGHT, WIDTH, 255, &place, text, sizeof text, &len), wanted);
  want("trap_window16",
       trap_window16(told, size, listed, count, words, SAMPLES, WIDTH, HEIGHT, WIDTH, 255, &place, text, sizeof text, &len), wanted);
  want("trap_halo", trap_halo(told, size, &halo, text, sizeof text, &len), wanted);
  call_opened(size, listed, count, wanted);
  want("trap_version", trap_version() == LIBTRAP_VERSION ? LIBTRAP_DONE : LIBTRAP_CALL, LIBTRAP_DONE);
  want("trap_cpu_supported", trap_cpu_supported() ? LIBTRAP_DONE : LIBTRAP_CALL, LIBTRAP_DONE);
  want("trap_kind_name", strcmp(trap_kind_name(LIBTRAP_KIND_FAR), "Far") ? LIBTRAP_CALL : LIBTRAP_DONE, LIBTRAP_DONE);
  want("trap_strerror", strcmp(trap_strerror(LIBTRAP_MEMORY), "out of memory") ? LIBTRAP_CALL : LIBTRAP_DONE, LIBTRAP_DONE);
  return NULL;
}

int main(void) {
  pthread_attr_t small;
  write_job();
  size_t sizes[] = {strlen(job), strlen(job) / 2};
  pthread_attr_init(&small);
  if (pthread_attr_setstacksize(&small, STACK)) return 1;
  for (size_t k = 0; k < sizeof sizes / sizeof *sizes; k++) {
    pthread_t thread;
    if (pthread_create(&thread, &small, call_all, &sizes[k]) || pthread_join(thread, NULL)) return 1;
  }
  printf("library: each call fits into a thread of %d bytes of stack\n", STACK);
  return 0;
}
