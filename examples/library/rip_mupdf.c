/* SPDX-License-Identifier: Apache-2.0 */
/* rip_mupdf IN.pdf DPI JOB FOLDER: a small RIP over MuPDF. Each page is rendered band by band into pixels that hold process and spot
 * colours side by side, as MuPDF has them; they are put into planes, and libtrap traps the planes of the page in one call. Each row is
 * rendered once: MuPDF may render a row otherwise in another band. A page's plates are written as FOLDER/PAGE-NAME.pgm, its report as
 * FOLDER/PAGE.report; with "-" in place of JOB they are written as they were rendered. It ends with the library's status, and with 1
 * if MuPDF fails or a file cannot be read or written. */
#include "plates.h"
#include "trap.h"

#include <mupdf/fitz.h>

enum { BAND_ROWS = 64, PROCESS = 4, MOST_NAME = 64, MOST_PATH = 4096, MUPDF_FAILS = 1 };

struct rip {
  struct bytes job;
  const char *folder;
  int page, plates;
  char names[LIBTRAP_MOST_PLANES][MOST_NAME + 1];
  struct planes planes;
};

static const char *const process_names[PROCESS] = {"Cyan", "Magenta", "Yellow", "Black"};

/* Sets the names of the page's plates: the process inks, then the spot colours. What a job's name cannot have becomes an underscore. */
static void name_plates(fz_context *context, struct rip *rip, fz_separations *spots) {
  int count = fz_count_separations(context, spots);
  rip->plates = PROCESS + count;
  if (rip->plates > LIBTRAP_MOST_PLANES) fz_throw(context, FZ_ERROR_GENERIC, "more than %d inks", LIBTRAP_MOST_PLANES);
  memset(rip->names, 0, sizeof rip->names);
  for (int c = 0; c < rip->plates; c++) {
    const char *name = c < PROCESS ? process_names[c] : fz_separation_name(context, spots, c - PROCESS);
    for (int k = 0; k < MOST_NAME && name[k]; k++)
      rip->names[c][k] = name[k] <= ' ' || name[k] > '~' || strchr("()<>[]{}/%", name[k]) ? '_' : name[k];
  }
}

/* Puts the pixels of a band into its rows of the planes. */
static void take_band(struct rip *rip, const fz_pixmap *band, unsigned top) {
  size_t plane = (size_t)rip->planes.width * rip->planes.height;
  uint8_t *planes = rip->planes.samples;
  for (int y = 0; y < band->h; y++) {
    const unsigned char *pixel = band->samples + y * band->stride;
    for (int x = 0; x < band->w; x++, pixel += band->n)
      for (int c = 0; c < rip->plates; c++) planes[c * plane + (top + y) * (size_t)rip->planes.width + x] = pixel[c];
  }
}

/* Renders the rows of a page from `box.y0` on, and before `box.y1`. */
static void render_band(fz_context *context, struct rip *rip, fz_page *page, fz_matrix scale, fz_separations *spots, fz_irect box,
                        unsigned top) {
  fz_pixmap *band = fz_new_pixmap_with_bbox(context, fz_device_cmyk(context), box, spots, 0);
  fz_device *device = 0;
  fz_var(device);
  fz_try(context) {
    fz_clear_pixmap(context, band);
    device = fz_new_draw_device(context, scale, band);
    fz_run_page(context, page, device, fz_identity, 0);
    fz_close_device(context, device);
    take_band(rip, band, top);
  }
  fz_always(context) {
    fz_drop_device(context, device);
    fz_drop_pixmap(context, band);
  }
  fz_catch(context) fz_rethrow(context);
}

/* Traps the planes and writes the report, or prints the error. */
static trap_status trap_page(struct rip *rip) {
  static char text[LIBTRAP_TEXT_SIZE];
  char names[LIBTRAP_MOST_PLANES * (MOST_NAME + 1)] = "", path[MOST_PATH];
  for (int c = 0; c < rip->plates; c++) strcat(strcat(names, c ? "\n" : ""), rip->names[c]);
  size_t text_len = 0;
  struct planes *planes = &rip->planes;
  trap_status status = trap_planes8(rip->job.at, rip->job.size, names, strlen(names), planes->samples, planes->count,
                                    planes->width, planes->height, planes->width, 255, text, sizeof text, &text_len);
  if (status != LIBTRAP_DONE) return fwrite(text, 1, text_len, stderr), status;
  snprintf(path, sizeof path, "%s/%d.report", rip->folder, rip->page);
  write_text(path, text, text_len);
  return status;
}

static void render_page(fz_context *context, struct rip *rip, fz_page *page, fz_separations *spots, fz_matrix scale) {
  fz_irect box = fz_round_rect(fz_transform_rect(fz_bound_page(context, page), scale));
  struct planes *planes = &rip->planes;
  name_plates(context, rip, spots);
  planes->bytes_each = 1, planes->maxval = 255;
  planes->width = box.x1 - box.x0, planes->height = box.y1 - box.y0;
  planes->count = (size_t)planes->width * planes->height * rip->plates;
  planes->samples = room(planes->count);
  for (unsigned top = 0; top < planes->height; top += BAND_ROWS) {
    unsigned end = top + BAND_ROWS < planes->height ? top + BAND_ROWS : planes->height;
    fz_irect rows = {box.x0, box.y0 + (int)top, box.x1, box.y0 + (int)end};
    render_band(context, rip, page, scale, spots, rows, top);
  }
}

/* Renders a page, traps it and writes its plates. */
static trap_status rip_page(fz_context *context, struct rip *rip, fz_document *document, float dpi) {
  fz_page *page = fz_load_page(context, document, rip->page - 1);
  fz_separations *spots = 0;
  trap_status status = LIBTRAP_DONE;
  char path[MOST_PATH];
  fz_var(spots);
  fz_try(context) {
    spots = fz_page_separations(context, page);
    for (int c = 0; c < fz_count_separations(context, spots); c++)
      fz_set_separation_behavior(context, spots, c, FZ_SEPARATION_SPOT);
    render_page(context, rip, page, spots, fz_scale(dpi / 72, dpi / 72));
  }
  fz_always(context) {
    fz_drop_separations(context, spots);
    fz_drop_page(context, page);
  }
  fz_catch(context) fz_rethrow(context);
  if (rip->job.at) status = trap_page(rip);
  for (int c = 0; status == LIBTRAP_DONE && c < rip->plates; c++) {
    snprintf(path, sizeof path, "%s/%d-%s.pgm", rip->folder, rip->page, rip->names[c]);
    write_plate(&rip->planes, c, path);
  }
  free(rip->planes.samples);
  rip->planes.samples = 0;
  if (status == LIBTRAP_DONE) printf("page %d: %u by %u in %d planes\n", rip->page, rip->planes.width, rip->planes.height, rip->plates);
  return status;
}

int main(int count, char **words) {
  if (count != 5) return fprintf(stderr, "usage: rip_mupdf IN.pdf DPI JOB FOLDER\n"), 2;
  static struct rip rip;
  trap_status status = LIBTRAP_DONE;
  fz_document *document = 0;
  fz_context *context = fz_new_context(0, 0, FZ_STORE_DEFAULT);
  if (!context) stop("rip_mupdf", "MuPDF does not begin");
  rip.folder = words[4];
  if (strcmp(words[3], "-")) rip.job = whole(words[3]);
  fz_var(document);
  fz_var(status);
  fz_try(context) {
    fz_register_document_handlers(context);
    document = fz_open_document(context, words[1]);
    int pages = fz_count_pages(context, document);
    for (rip.page = 1; rip.page <= pages && status == LIBTRAP_DONE; rip.page++)
      status = rip_page(context, &rip, document, (float)atof(words[2]));
  }
  fz_always(context) fz_drop_document(context, document);
  fz_catch(context) {
    fprintf(stderr, "rip_mupdf: %s\n", fz_caught_message(context));
    return MUPDF_FAILS;
  }
  fz_drop_context(context);
  free(rip.job.at);
  return status;
}
