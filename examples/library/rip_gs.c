/* SPDX-License-Identifier: Apache-2.0 */
/* rip_gs IN.pdf DPI WIDTHxHEIGHT JOB FOLDER: a small RIP. Ghostscript's library renders each page of a PDF into memory, a plane for each
 * colorant, and libtrap traps these planes where they lie, with the gaps that Ghostscript leaves after its rows. Nothing is copied from
 * the one to the other. A page's plates are written as FOLDER/PAGE-NAME.pgm, and its report as FOLDER/PAGE.report; with "-" in place of
 * JOB they are written as they were rendered. WIDTH and HEIGHT are the sides of every page in samples: Ghostscript 10.00 loses its
 * raster where a page has other ones. It ends with the library's status, and with 1 where Ghostscript fails or a file cannot be read or
 * written. */
#include "plates.h"
#include "trap.h"

#include <ghostscript/gdevdsp.h>
#include <ghostscript/gserrors.h>
#include <ghostscript/iapi.h>

enum { MOST_COLORANTS = 64, MOST_NAME = 64, MOST_PATH = 4096, GHOSTSCRIPT_FAILS = 1 };

/* The planes as Ghostscript keeps them, one after the other, each row by row from the top; 0 is no ink. Its size is that of the whole
 * block of memory. */
struct raster {
  uint8_t *samples;
  size_t size;
  int width, height, step;
};

struct rip {
  struct raster raster;
  char colorants[MOST_COLORANTS][MOST_NAME + 1];
  uint8_t *block; /* the memory that Ghostscript asked for last */
  size_t block_size;
  struct bytes job;
  const char *folder;
  int page, status;
};

static size_t plane_size(const struct raster *raster) { return (size_t)raster->step * raster->height; }

static int planes_of(const struct rip *rip) {
  int planes = 0;
  while (planes < MOST_COLORANTS && rip->colorants[planes][0]) planes++;
  return planes;
}

/* Traps the planes in Ghostscript's own raster, and writes the report; or tells why not. */
static trap_status trap_page(const struct rip *rip, int planes) {
  static char text[LIBTRAP_TEXT_SIZE];
  const struct raster *raster = &rip->raster;
  char names[MOST_COLORANTS * (MOST_NAME + 1)] = "", path[MOST_PATH];
  for (int c = 0; c < planes; c++) strcat(strcat(names, c ? "\n" : ""), rip->colorants[c]);
  size_t text_len = 0;
  trap_status status = trap_planes8(rip->job.at, rip->job.size, names, strlen(names), raster->samples,
                                    planes * plane_size(raster), raster->width, raster->height, raster->step, 255, text, sizeof text,
                                    &text_len);
  if (status != LIBTRAP_DONE) return fwrite(text, 1, text_len, stderr), status;
  snprintf(path, sizeof path, "%s/%d.report", rip->folder, rip->page);
  write_text(path, text, text_len);
  return status;
}

/* A plate has 0 for full ink. */
static void write_plane(const struct rip *rip, int c) {
  const struct raster *raster = &rip->raster;
  char path[MOST_PATH];
  snprintf(path, sizeof path, "%s/%d-%s.pgm", rip->folder, rip->page, rip->colorants[c]);
  FILE *file = begun(path);
  uint8_t *row = room(raster->width);
  fprintf(file, "P5\n%d %d\n255\n", raster->width, raster->height);
  for (int y = 0; y < raster->height; y++) {
    const uint8_t *inks = raster->samples + c * plane_size(raster) + (size_t)y * raster->step;
    for (int x = 0; x < raster->width; x++) row[x] = (uint8_t)(255 - inks[x]);
    fwrite(row, 1, raster->width, file);
  }
  free(row);
  if (fclose(file)) stop(path, strerror(errno));
}

/* What Ghostscript calls. The handle is the struct rip; a number below 0 stops it. */

static int is_ready(void *handle, void *device) {
  (void)handle, (void)device;
  return 0;
}

static int will_have_sides(void *handle, void *device, int width, int height, int step, unsigned format) {
  (void)handle, (void)device, (void)width, (void)height, (void)step, (void)format;
  return 0;
}

/* It asks for memory for other things too, so the raster is known by the address that has_sides tells afterwards. */
static void *asks_for_memory(void *handle, void *device, size_t size) {
  struct rip *rip = handle;
  (void)device;
  rip->block_size = size;
  return rip->block = malloc(size);
}

static int gives_memory_back(void *handle, void *device, void *memory) {
  (void)handle, (void)device;
  free(memory);
  return 0;
}

static int has_sides(void *handle, void *device, int width, int height, int step, unsigned format, unsigned char *samples) {
  struct rip *rip = handle;
  (void)device, (void)format;
  rip->raster = (struct raster){samples, samples && samples == rip->block ? rip->block_size : 0, width, height, step};
  memset(rip->colorants, 0, sizeof rip->colorants);
  return 0;
}

/* What a name of a job cannot have becomes an underscore. */
static int has_colorant(void *handle, void *device, int c, const char *name, unsigned short cyan, unsigned short magenta,
                        unsigned short yellow, unsigned short black) {
  struct rip *rip = handle;
  (void)device, (void)cyan, (void)magenta, (void)yellow, (void)black;
  if (c < 0 || c >= MOST_COLORANTS) return -1;
  for (int k = 0; k < MOST_NAME && name[k]; k++)
    rip->colorants[c][k] = name[k] <= ' ' || name[k] > '~' || strchr("()<>[]{}/%", name[k]) ? '_' : name[k];
  return 0;
}

static int has_page(void *handle, void *device, int copies, int flush) {
  struct rip *rip = handle;
  const struct raster *raster = &rip->raster;
  int planes = planes_of(rip);
  (void)device, (void)copies, (void)flush;
  rip->page++;
  if (!planes || planes * plane_size(raster) > raster->size) stop("rip", "Ghostscript tells no raster with a plane for each colorant");
  if (rip->job.at) rip->status = trap_page(rip, planes);
  if (rip->status) return -1;
  for (int c = 0; c < planes; c++) write_plane(rip, c);
  printf("page %d: %d by %d in %d planes, %d bytes a row\n", rip->page, raster->width, raster->height, planes, raster->step);
  return 0;
}

/* Renders every page. Answers what Ghostscript does, below 0 where it fails. */
static int render(struct rip *rip, char *in, const char *dpi, const char *sides) {
  display_callback calls = {
      .size = sizeof calls, .version_major = DISPLAY_VERSION_MAJOR, .version_minor = DISPLAY_VERSION_MINOR,
      .display_open = is_ready, .display_preclose = is_ready, .display_close = is_ready, .display_sync = is_ready,
      .display_presize = will_have_sides, .display_size = has_sides, .display_separation = has_colorant, .display_page = has_page,
      .display_memalloc = asks_for_memory, .display_memfree = gives_memory_back};
  unsigned format = DISPLAY_COLORS_SEPARATION | DISPLAY_PLANAR | DISPLAY_DEPTH_8 | DISPLAY_TOPFIRST | DISPLAY_BIGENDIAN;
  char resolution[64], size[64], shape[64], handle[64];
  snprintf(resolution, sizeof resolution, "-r%s", dpi);
  snprintf(size, sizeof size, "-g%s", sides);
  snprintf(shape, sizeof shape, "-dDisplayFormat=%u", format);
  snprintf(handle, sizeof handle, "-sDisplayHandle=16#%llx", (unsigned long long)(size_t)rip);
  char *words[] = {"rip", "-q", "-dSAFER", "-dBATCH", "-dNOPAUSE", "-dMaxSpots=12", "-sDEVICE=display", handle, shape, resolution, size, in};
  void *ghostscript = 0;
  int code = gsapi_new_instance(&ghostscript, 0);
  if (code < 0) return code;
  gsapi_set_arg_encoding(ghostscript, GS_ARG_ENCODING_UTF8);
  gsapi_set_display_callback(ghostscript, &calls);
  code = gsapi_init_with_args(ghostscript, sizeof words / sizeof *words, words);
  gsapi_exit(ghostscript);
  gsapi_delete_instance(ghostscript);
  return code == gs_error_Quit ? 0 : code;
}

int main(int count, char **words) {
  if (count != 6) return fprintf(stderr, "usage: rip_gs IN.pdf DPI WIDTHxHEIGHT JOB FOLDER\n"), 2;
  static struct rip rip;
  rip.folder = words[5];
  if (strcmp(words[4], "-")) rip.job = whole(words[4]);
  int code = render(&rip, words[1], words[2], words[3]);
  free(rip.job.at);
  return rip.status ? rip.status : code < 0 ? GHOSTSCRIPT_FAILS : 0;
}
