/* SPDX-License-Identifier: Apache-2.0 */
/* Plates as raw PGM files, for the examples: read into planes in memory, and written out of them. In a file 0 is full ink. */
#ifndef PLATES_H
#define PLATES_H

#include <errno.h>
#include <stdint.h>
#include <stdio.h>
#include <stdlib.h>
#include <string.h>

/* A file that was read whole. */
struct bytes {
  char *at;
  size_t size;
};

/* The planes of the page, one after the other, of samples of one byte or of two. */
struct planes {
  int bytes_each;
  void *samples;
  unsigned width, height, maxval;
  size_t count;
};

static void stop(const char *what, const char *why) {
  fprintf(stderr, "%s: %s\n", what, why);
  exit(1);
}

static void *room(size_t size) {
  void *at = malloc(size ? size : 1);
  if (!at) stop("memory", "there is too little");
  return at;
}

static struct bytes whole(const char *name) {
  FILE *file = fopen(name, "rb");
  if (!file || fseek(file, 0, SEEK_END)) stop(name, strerror(errno));
  struct bytes read = {0, (size_t)ftell(file)};
  rewind(file);
  read.at = room(read.size + 1);
  if (fread(read.at, 1, read.size, file) != read.size) stop(name, "could not be read");
  read.at[read.size] = 0;
  fclose(file);
  return read;
}

static inline FILE *begun(const char *name) {
  FILE *file = fopen(name, "wb");
  if (!file) stop(name, strerror(errno));
  return file;
}

/* Writes a text into a file. */
static inline void write_text(const char *name, const char *text, size_t size) {
  FILE *file = begun(name);
  fwrite(text, 1, size, file);
  if (fclose(file)) stop(name, strerror(errno));
}

static unsigned sample(const uint8_t *raster, size_t at, unsigned maxval) {
  return maxval < 256 ? raster[at] : raster[2 * at] * 256u + raster[2 * at + 1];
}

static void put_ink(struct planes *planes, size_t at, unsigned ink) {
  if (planes->bytes_each == 1) ((uint8_t *)planes->samples)[at] = (uint8_t)ink;
  else ((uint16_t *)planes->samples)[at] = (uint16_t)ink;
}

static inline unsigned ink_at(const struct planes *planes, size_t at) {
  return planes->bytes_each == 1 ? ((uint8_t *)planes->samples)[at] : ((uint16_t *)planes->samples)[at];
}

/* Reads plate c of so many into its place. The first one tells the sides of all. */
static void read_plate(struct planes *planes, int c, int plates, const char *name) {
  struct bytes file = whole(name);
  unsigned width, height, maxval;
  int header = 0;
  if (sscanf(file.at, "P5 %u %u %u%n", &width, &height, &maxval, &header) < 3) stop(name, "is no raw PGM file");
  size_t plane = (size_t)width * height;
  if (c == 0) {
    planes->width = width, planes->height = height, planes->maxval = maxval, planes->count = plane * plates;
    planes->samples = room(planes->count * planes->bytes_each);
  }
  if (width != planes->width || height != planes->height || maxval != planes->maxval) stop(name, "is of other sides or another maxval");
  if (planes->bytes_each == 1 && maxval > 255) stop(name, "has samples of two bytes");
  if (file.size - header - 1 != plane * (maxval < 256 ? 1 : 2)) stop(name, "is too short or too long");
  for (size_t k = 0; k < plane; k++) put_ink(planes, c * plane + k, maxval - sample((const uint8_t *)file.at + header + 1, k, maxval));
  free(file.at);
}

/* Cuts a word NAME:IN:OUT. The name is put at the end of a text, an LF between one and the next. Answers IN. */
static inline const char *cut_word(char *word, char *names, char **name, char **out) {
  char *in = strchr(word, ':'), *after = in ? strchr(in + 1, ':') : 0;
  if (!after || in - word > 64) stop(word, "is no NAME:IN:OUT");
  *in = *after = 0, *name = word, *out = after + 1;
  strcat(strcat(names, *names ? "\n" : ""), word);
  return in + 1;
}

/* Reads the plates of words NAME:IN:OUT, whose names are put into a text, and one by one. */
static inline void read_plates(struct planes *planes, int plates, char **words, char *names, char **named, char **outs) {
  names[0] = 0;
  for (int c = 0; c < plates; c++) read_plate(planes, c, plates, cut_word(words[c], names, &named[c], &outs[c]));
}

static inline void write_plate(const struct planes *planes, int c, const char *name) {
  FILE *file = begun(name);
  fprintf(file, "P5\n%u %u\n%u\n", planes->width, planes->height, planes->maxval);
  size_t plane = (size_t)planes->width * planes->height;
  for (size_t k = 0; k < plane; k++) {
    unsigned value = planes->maxval - ink_at(planes, c * plane + k);
    if (planes->maxval > 255) putc(value / 256, file);
    putc(value % 256, file);
  }
  if (fclose(file)) stop(name, strerror(errno));
}

#endif
