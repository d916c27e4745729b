/* SPDX-License-Identifier: Apache-2.0 */
/* Tries what docs/LIBRARY.md and trap.h state of single calls: halos, names, numbers, limits, places, the place of a sample, pixels that
 * an OpaqueIgnore plane leaves out, and what half-tint pixels do. It prints what is otherwise, and ends with 1 then. */
#include <stdarg.h>
#include <stdio.h>
#include <stdlib.h>
#include <string.h>

#include "trap.h"

enum { WIDE = 12, TALL = 8, MOST = 3, TEXT = 2048 };

#define DETAILS \
  " /TrappingDetails << /Type 1001 /ColorantDetails << /Yellow << /NeutralDensity 0.16 >> /Black << /NeutralDensity 1.7 >> " \
  "/PANTONE_185_C << /NeutralDensity 0.8 >> /Mask << /NeutralDensity 1 /ColorantType /OpaqueIgnore >> >> >> >> setpagedevice "

#define ZONE "<< /TrapWidth 0.06 >> settrapparams 0 0 moveto 9 0 lineto 9 9 lineto settrapzone"

static int wrong;
static char text[LIBTRAP_TEXT_SIZE + 1];
static size_t text_len;

/* What the last call returned and printed has to be so. */
static void expect(const char *what, trap_status status, trap_status wanted, const char *line) {
  text[text_len] = 0;
  if (status == wanted && (!line || !strcmp(text, line))) return;
  wrong = 1;
  printf("%s: status %d and %s, in place of %d and %s\n", what, status, text, wanted, line ? line : "any text");
}

static void expect_number(const char *what, long long found, long long wanted) {
  if (found == wanted) return;
  wrong = 1;
  printf("%s: %lld in place of %lld\n", what, found, wanted);
}

/* A fault of the arguments, which names nothing else. */
static void expect_error(const char *what, const struct trap_error *error, uint32_t kind) {
  const struct trap_error wanted = {sizeof wanted, LIBTRAP_CALL, kind, LIBTRAP_NO_NUMBER, LIBTRAP_NO_NUMBER, LIBTRAP_NO_NUMBER,
                                    LIBTRAP_NO_OFFSET, 0};
  expect_number(what, memcmp(error, &wanted, sizeof wanted), 0);
}

/* A job at this resolution, with this after its ink details. */
static const char *job_of(unsigned dpi, const char *rest) {
  static char job[TEXT];
  snprintf(job, sizeof job, "<< /HWResolution [%u %u]" DETAILS "%s showpage", dpi, dpi, rest);
  return job;
}

static trap_status trap_page(const char *job, const char *names, uint8_t *samples, size_t count, uint32_t width, uint32_t height,
                             uint32_t step) {
  return trap_planes8(job, strlen(job), names, strlen(names), samples, count, width, height, step, 255, text, LIBTRAP_TEXT_SIZE,
                      &text_len);
}

/* A page of one ink, where the job or the samples may be null. */
static trap_status trap_page_of(const char *job, size_t size, const char *name, uint8_t *samples) {
  return trap_planes8(job, size, name, strlen(name), samples, WIDE * TALL, WIDE, TALL, WIDE, 255, text, LIBTRAP_TEXT_SIZE, &text_len);
}

static void halos(void) {
  static const struct { const char *width; unsigned halo; } tried[] = {{"2.08", 2}, {"4.17", 4}, {"3.08", 3}, {"2.5", 3}, {"2.4999", 2},
                                                                       {"0.1", 1}};
  for (size_t k = 0; k < sizeof tried / sizeof *tried; k++) {
    char rest[64];
    uint32_t halo = 0;
    snprintf(rest, sizeof rest, "<< /TrapWidth %s >> settrapparams", tried[k].width);
    const char *job = job_of(72, rest);
    expect("halo", trap_halo(job, strlen(job), &halo, text, LIBTRAP_TEXT_SIZE, &text_len), LIBTRAP_DONE, "");
    expect_number(tried[k].width, halo, tried[k].halo);
  }
}

/* Yellow in columns 0 to 5, black in the others; the plane after them is empty. */
static void draw(uint8_t *samples) {
  memset(samples, 0, MOST * TALL * WIDE);
  for (int y = 0; y < TALL; y++)
    for (int x = 0; x < WIDE; x++) samples[(x < 6 ? y : TALL + y) * WIDE + x] = 255;
}

static const char *wide_job(void) { return job_of(72, "<< /TrapWidth 2 >> settrapparams"); }

/* Where half an edge pixel is yellow and half black, the trap has half of the yellow. */
static void half_tints(void) {
  uint8_t samples[MOST * TALL * WIDE];
  draw(samples);
  expect("hard edge", trap_page(wide_job(), "Yellow\nBlack", samples, 2 * TALL * WIDE, WIDE, TALL, WIDE), LIBTRAP_DONE, 0);
  expect_number("yellow at 6", samples[6], 255), expect_number("yellow at 7", samples[7], 255), expect_number("yellow at 8", samples[8], 0);
  draw(samples);
  for (int y = 0; y < TALL; y++) samples[y * WIDE + 5] = 128, samples[(TALL + y) * WIDE + 5] = 127;
  expect("soft edge", trap_page(wide_job(), "Yellow\nBlack", samples, 2 * TALL * WIDE, WIDE, TALL, WIDE), LIBTRAP_DONE, 0);
  expect_number("yellow at 6", samples[6], 128), expect_number("yellow at 7", samples[7], 128), expect_number("yellow at 8", samples[8], 0);
}

/* A pixel with the mask is not trapped, and an edge with the mask on one side traps nothing on the other. */
static void masks(void) {
  uint8_t samples[MOST * TALL * WIDE], before[MOST * TALL * WIDE], *mask = samples + 2 * TALL * WIDE;
  draw(samples);
  memset(mask, 1, TALL / 2 * WIDE);
  memcpy(before, samples, sizeof samples);
  expect("mask of rows", trap_page(wide_job(), "Yellow\nBlack\nMask", samples, sizeof samples, WIDE, TALL, WIDE), LIBTRAP_DONE, 0);
  for (int c = 0; c < MOST; c++)
    expect_number("masked rows differ", memcmp(samples + c * TALL * WIDE, before + c * TALL * WIDE, TALL / 2 * WIDE), 0);
  expect_number("yellow below the mask", samples[(TALL - 1) * WIDE + 7], 255);
  draw(samples);
  for (int y = 0; y < TALL; y++) mask[y * WIDE + 5] = 255;
  memcpy(before, samples, sizeof samples);
  expect("mask of a column", trap_page(wide_job(), "Yellow\nBlack\nMask", samples, sizeof samples, WIDE, TALL, WIDE), LIBTRAP_DONE, 0);
  expect_number("beside a mask samples differ", memcmp(samples, before, sizeof samples), 0);
}

/* Names, numbers of a job, and the sample that a line names. */
static void faults(void) {
  uint8_t samples[MOST * TALL * WIDE] = {0};
  expect("a blank", trap_page(wide_job(), "PANTONE 185 C", samples, TALL * WIDE, WIDE, TALL, WIDE), LIBTRAP_CALL, "call: Names\n");
  expect("twice", trap_page(wide_job(), "Black\nBlack", samples, 2 * TALL * WIDE, WIDE, TALL, WIDE), LIBTRAP_CALL, "call: Names\n");
  expect("underscores", trap_page(wide_job(), "PANTONE_185_C", samples, TALL * WIDE, WIDE, TALL, WIDE), LIBTRAP_DONE, 0);
  expect("another ink", trap_page(wide_job(), "Black\nCyan", samples, 2 * TALL * WIDE, WIDE, TALL, WIDE), LIBTRAP_JOB,
         "job: NoDetails for plate 1\n");
  for (int k = 0; k < 2; k++) {
    const char *job = k ? "<< /TrapWidth 1e-05 >>" : "<< /TrapWidth 0,25 >>";
    expect(job, trap_page(job, "Black", samples, TALL * WIDE, WIDE, TALL, WIDE), LIBTRAP_JOB, "job: BadToken at 14\n");
  }
  samples[(4 + 2) * WIDE + 3] = 101; /* plane 1, row 2, column 3, of planes of 4 rows of 10 columns */
  const char *job = wide_job();
  trap_status status = trap_planes8(job, strlen(job), "Yellow\nBlack", 12, samples, 2 * 4 * WIDE, 10, 4, WIDE, 100, text,
                                    LIBTRAP_TEXT_SIZE, &text_len);
  expect("a sample", status, LIBTRAP_PAGE, "plate 1: SampleAboveMaxval at 23\n");
}

/* A page of A4 at 600 dpi may have four planes; a plane alone at most 160,000,000 pixels. */
static void limits(void) {
  const uint32_t width = 4961, height = 7016;
  size_t plane = (size_t)width * height;
  const char *job = job_of(600, "<< /Enabled false >> settrapparams"), *names = "Yellow\nBlack\nMask\nPANTONE_185_C\nA";
  uint8_t *samples = calloc(5, plane);
  if (!samples) exit(1);
  expect("four planes", trap_page(job, "Yellow\nBlack\nMask\nPANTONE_185_C", samples, 4 * plane, width, height, width), LIBTRAP_DONE, 0);
  job = "<< /HWResolution [600 600] /TrappingDetails << /Type 1001 /ColorantDetails << /Yellow << /NeutralDensity 1 >> "
        "/Black << /NeutralDensity 1 >> /Mask << /NeutralDensity 1 >> /PANTONE_185_C << /NeutralDensity 1 >> /A << /NeutralDensity 1 >> "
        ">> >> >> setpagedevice showpage";
  expect("five planes", trap_page(job, names, samples, 5 * plane, width, height, width), LIBTRAP_PAGE, "page: TooManySamples\n");
  expect("one plane", trap_page(job, "A", samples, 0, 16384, 9766, 16384), LIBTRAP_CALL, "call: Sides\n");
  expect("one plane of the most", trap_page(job, "A", samples, 0, 16384, 9765, 16384), LIBTRAP_CALL, "call: Samples\n");
  free(samples);
}

/* The causes of "call: Place": the first ones hide a fault of the job, and the others do not. */
static void places(void) {
  static const struct { const char *what, *rest, *line; struct trap_place place; } tried[] = {
      {"off the sheet", "?", "call: Place\n", {WIDE, TALL, 1, 0, 0, 0, 4, 4}},
      {"a wide sheet", "?", "call: Place\n", {LIBTRAP_MOST_SHEET_SIDE + 1, TALL, 0, 0, 0, 0, 4, 4}},
      {"core outside", "?", "call: Place\n", {WIDE, TALL, 0, 0, 9, 0, 4, 4}},
      {"a core without columns", "?", "call: Place\n", {WIDE, TALL, 0, 0, 0, 0, 0, 4}},
      {"a core without rows", "?", "call: Place\n", {WIDE, TALL, 0, 0, 0, 0, 4, 0}},
      {"a fault of the job", "?", "job: UnknownOperator at 0\n", {WIDE, 100, 0, 1, 0, 1, WIDE, 6}},
      {"no halo", "<< /TrapWidth 0.06 >> settrapparams", "call: Place\n", {WIDE, 100, 0, 1, 0, 1, WIDE, 6}},
      {"off the grid", ZONE, "call: Place\n", {WIDE + 1, TALL, 1, 0, 11, 0, 1, TALL}},
      {"no zones", "", 0, {WIDE + 1, TALL, 1, 0, 11, 0, 1, TALL}},
      {"on the grid", ZONE, 0, {WIDE + 127, TALL, 127, 0, 11, 0, 1, TALL}},
      {"below off the grid", ZONE, "call: Place\n", {WIDE, TALL + 126, 0, 0, 0, 0, WIDE, 1}},
      {"below on the grid", ZONE, 0, {WIDE, TALL + 127, 0, 0, 0, 0, WIDE, 1}}};
  for (size_t k = 0; k < sizeof tried / sizeof *tried; k++) {
    uint8_t samples[TALL * WIDE] = {0};
    const char *job = *tried[k].rest == '?' ? "?" : job_of(2540, tried[k].rest), *line = tried[k].line;
    trap_status wanted = !line ? LIBTRAP_DONE : *line == 'c' ? LIBTRAP_CALL : LIBTRAP_JOB;
    trap_status status = trap_window8(job, strlen(job), "Black", 5, samples, sizeof samples, WIDE, TALL, WIDE, 255, &tried[k].place, text,
                                      LIBTRAP_TEXT_SIZE, &text_len);
    expect(tried[k].what, status, wanted, line);
  }
}

/* A null pointer is the first fault, unless its size is 0. What is passed with it would be right. */
static void nulls(void) {
  const char *job = job_of(600, "");
  uint8_t samples[TALL * WIDE] = {0};
  struct trap_job handle = LIBTRAP_NO_JOB;
  struct trap_error error = LIBTRAP_NO_ERROR;
  struct trap_report report = LIBTRAP_NO_REPORT;
  struct trap_place place = {WIDE, TALL, 0, 0, 0, 0, WIDE, TALL};
  uint32_t halo = 0;
  size_t size = strlen(job), len = 0;
  expect("no job", trap_page_of(0, 1, "Black", samples), LIBTRAP_CALL, "call: Null\n");
  expect("an empty job", trap_page_of(0, 0, "Black", samples), LIBTRAP_JOB, 0);
  expect("no names", trap_planes8(job, size, 0, 5, samples, sizeof samples, WIDE, TALL, WIDE, 255, text, LIBTRAP_TEXT_SIZE, &text_len),
         LIBTRAP_CALL, "call: Null\n");
  expect("no samples", trap_page_of(job, size, "Black", 0), LIBTRAP_CALL, "call: Null\n");
  expect("no place", trap_window8(job, size, "Black", 5, samples, sizeof samples, WIDE, TALL, WIDE, 255, 0, text, LIBTRAP_TEXT_SIZE,
                                  &text_len), LIBTRAP_CALL, "call: Null\n");
  expect("no halo", trap_halo(job, size, 0, text, LIBTRAP_TEXT_SIZE, &text_len), LIBTRAP_CALL, "call: Null\n");
  expect("no handle", trap_open(job, size, 0, text, LIBTRAP_TEXT_SIZE, &text_len, &error), LIBTRAP_CALL, "call: Null\n");
  expect_error("no handle", &error, LIBTRAP_KIND_NULL);
  expect("no handle of a window", trap_open_window8(0, "Black", 5, samples, sizeof samples, WIDE, TALL, WIDE, 255, &place, text,
                                                    LIBTRAP_TEXT_SIZE, &text_len, 0, 0), LIBTRAP_CALL, "call: Null\n");
  expect("a handle that is not open", trap_open_window8(&handle, "?", 1, samples, 1, 0, 0, 0, 0, &place, text, LIBTRAP_TEXT_SIZE,
                                                        &text_len, 0, &error), LIBTRAP_CALL, "call: Handle\n");
  expect_error("a handle that is not open", &error, LIBTRAP_KIND_HANDLE);
  error.size++;
  expect("an error of another size", trap_open_window8(&handle, "?", 1, samples, 1, 0, 0, 0, 0, &place, text, LIBTRAP_TEXT_SIZE,
                                                       &text_len, 0, &error), LIBTRAP_CALL, "call: Size\n");
  expect_number("it is left", error.size-- == sizeof error + 1 && error.kind == LIBTRAP_KIND_HANDLE, 1);
  report.size--;
  expect("a report of another size", trap_open_window8(&handle, "?", 1, samples, 1, 0, 0, 0, 0, &place, text, LIBTRAP_TEXT_SIZE,
                                                       &text_len, &report, &error), LIBTRAP_CALL, "call: Size\n");
  expect_error("a report of another size", &error, LIBTRAP_KIND_SIZE);
  expect_number("no text", trap_halo(job, size, &halo, 0, 9, &len), LIBTRAP_CALL);
  expect_number("the length of its line", (long long)len, 11);
  expect_number("no length", trap_halo(job, size, &halo, text, LIBTRAP_TEXT_SIZE, 0), LIBTRAP_CALL);
  expect_number("no text of no size", trap_halo(job, size, &halo, 0, 0, &len), LIBTRAP_DONE);
  expect_number("no open halo", trap_open_halo(0, &halo), LIBTRAP_CALL);
  trap_close(0);
}

int main(void) {
  nulls();
  halos();
  half_tints();
  masks();
  faults();
  limits();
  places();
  if (!wrong) printf("library: single calls do what docs/LIBRARY.md states\n");
  return wrong;
}
