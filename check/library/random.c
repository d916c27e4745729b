/* SPDX-License-Identifier: Apache-2.0 */
/* random CALLS SEED THREADS: random calls of the library, most of which have to succeed, beside the trapping rule written here once
 * more as docs/JOBS.md and docs/WORKINGS.md have it, sample by sample. Each case is a page, whose call has to give the rule's samples
 * and report; windows of this page, whose cores have to be the page's, with their part of the report; its halo; and calls with an
 * argument, a sample or a job that is wrong, which have to change no sample. Each buffer lies against a page of memory that nobody may
 * touch, before it or behind it in turn, and what else is around it has to stay. Half of the windows are called by the open job. It ends
 * with 1 at the first difference. */
#define _GNU_SOURCE
#include <pthread.h>
#include <stdarg.h>
#include <stdio.h>
#include <stdlib.h>
#include <string.h>
#include <sys/mman.h>

#include "trap.h"

enum {
  S = 10000, SIDE = 14, INKS = 5, ZONES = 4, VERTICES = 6, STEP_MORE = 3, ROOM = 1 << 16, PAGE = 4096, CANARY = 0xa5,
  MOST_SAMPLES = INKS * SIDE * (SIDE + STEP_MORE), MOST_EDGES = 2 * SIDE * SIDE, EDGES_AWAY = 1 << 30, MOST_REACH = 256
};

typedef __int128 wide;

/* ---- random numbers: a state for each thread */
struct dice {
  uint64_t state;
};

static uint64_t roll(struct dice *dice) {
  uint64_t z = (dice->state += 0x9e3779b97f4a7c15u);
  z = (z ^ (z >> 30)) * 0xbf58476d1ce4e5b9u;
  z = (z ^ (z >> 27)) * 0x94d049bb133111ebu;
  return z ^ (z >> 31);
}

/* A number from `least` to `most`. */
static long from_to(struct dice *dice, long least, long most) { return least + (long)(roll(dice) % (uint64_t)(most - least + 1)); }
static int once_in(struct dice *dice, int n) { return from_to(dice, 1, n) == 1; }

/* ---- a case: a page, and its job */
enum kind { NORMAL, TRANSPARENT, OPAQUE, OPAQUE_IGNORE };
static const char *const kind_names[] = {"Normal", "Transparent", "Opaque", "OpaqueIgnore"};
static const char *const ink_names[INKS] = {"Cyan", "PANTONE#20185#20C", "K", "~!", "Varnish"};

struct params {
  long width, black_width, black_color, black_density, step, sliding, scaling; /* in ten-thousandths */
  int enabled;
};

struct zone {
  struct params params;
  int vertices;
  long x[VERTICES], y[VERTICES]; /* in ten-thousandths of a point */
};

struct sheet {
  int width, height, inks, zones, resolution;
  long maxval;
  long density[INKS];
  enum kind kind[INKS];
  struct zone zone[ZONES];
  long tints[INKS][SIDE][SIDE], news[INKS][SIDE][SIDE];
  int zone_at[SIDE][SIDE];
  unsigned char right[SIDE][SIDE], lower[SIDE][SIDE]; /* whether the edge to the right, or below, decides */
  int edges, edge_x[MOST_EDGES], edge_y[MOST_EDGES];
  char job[8192];
  size_t job_size;
};

/* ---- the rule */
static int counts(const struct sheet *p, int c) { return p->kind[c] == NORMAL || p->kind[c] == OPAQUE; }
static int spreads(const struct sheet *p, int c) { return p->kind[c] == NORMAL; }

static int winds(const struct sheet *p, const struct zone *zone, int x, int y) {
  wide cx = (wide)(2 * x + 1) * 36 * S, cy = (wide)(2 * (p->height - y) - 1) * 36 * S;
  int total = 0;
  for (int k = 0; k < zone->vertices; k++) {
    int n = (k + 1) % zone->vertices;
    wide x0 = (wide)zone->x[k] * p->resolution, y0 = (wide)zone->y[k] * p->resolution;
    wide x1 = (wide)zone->x[n] * p->resolution, y1 = (wide)zone->y[n] * p->resolution;
    wide side = (x1 - x0) * (cy - y0) - (cx - x0) * (y1 - y0);
    if (y0 <= cy && cy < y1 && side > 0) total++;
    if (y1 <= cy && cy < y0 && side < 0) total--;
  }
  return total != 0;
}

static int is_shut(const struct sheet *p, int x, int y) {
  for (int c = 0; c < p->inks; c++)
    if (p->kind[c] == OPAQUE_IGNORE && p->tints[c][y][x] > 0) return 1;
  return 0;
}

static wide density(const struct sheet *p, int x, int y) {
  wide sum = 0;
  for (int c = 0; c < p->inks; c++)
    if (counts(p, c)) sum += (wide)p->density[c] * p->tints[c][y][x];
  return sum;
}

static int falls(const struct sheet *p, const struct params *q, int x, int y, int ox, int oy) {
  for (int c = 0; c < p->inks; c++) {
    long step = p->tints[c][y][x] - p->tints[c][oy][ox];
    if (counts(p, c) && step > 0 && (wide)step * S >= (wide)q->step * p->maxval) return 1;
  }
  return 0;
}

static int apart(const struct sheet *p, const struct params *q, int x, int y, int ox, int oy) {
  return falls(p, q, x, y, ox, oy) && falls(p, q, ox, oy, x, y);
}

static const struct params *params_at(const struct sheet *p, int x, int y) { return &p->zone[p->zone_at[y][x]].params; }

static int decides(const struct sheet *p, int x, int y, int ox, int oy) {
  const struct params *a = params_at(p, x, y), *b = params_at(p, ox, oy);
  return !is_shut(p, x, y) && !is_shut(p, ox, oy) && a->enabled && b->enabled && apart(p, a, x, y, ox, oy) && apart(p, b, x, y, ox, oy);
}

/* Whether the densities of both sides are as near as the limit asks. */
static int is_slid(const struct sheet *p, const struct params *q, int x, int y, int ox, int oy) {
  wide a = density(p, x, y), b = density(p, ox, oy);
  return (a < b ? a : b) * S >= q->sliding * (a < b ? b : a);
}

static int black_sample(const struct sheet *p, const struct params *q, int x, int y) {
  for (int c = 0; c < p->inks; c++) {
    long tint = p->tints[c][y][x];
    if (counts(p, c) && p->density[c] >= q->black_density && tint > 0 && (wide)tint * S >= (wide)q->black_color * p->maxval) return 1;
  }
  return 0;
}

static int is_black(const struct sheet *p, const struct params *q, int x, int y, int ox, int oy) {
  wide a = density(p, x, y), b = density(p, ox, oy);
  return (a >= b && black_sample(p, q, x, y)) || (b >= a && black_sample(p, q, ox, oy));
}

/* Writes the new tints of a sample. */
static void trap_sample(struct sheet *p, int x, int y) {
  long nearest = EDGES_AWAY;
  int ex = 0, ey = 0;
  for (int c = 0; c < p->inks; c++) p->news[c][y][x] = p->tints[c][y][x];
  for (int k = 0; k < p->edges; k++) {
    long dx = p->edge_x[k] - 2 * x, dy = p->edge_y[k] - 2 * y, d2 = dx * dx + dy * dy;
    if (d2 < nearest || (d2 == nearest && (p->edge_x[k] < ex || (p->edge_x[k] == ex && p->edge_y[k] < ey))))
      nearest = d2, ex = p->edge_x[k], ey = p->edge_y[k];
  }
  if (nearest == EDGES_AWAY) return;
  const struct params *q = params_at(p, x, y);
  int fx = ex / 2, fy = ey / 2, sx = (ex + 1) / 2, sy = (ey + 1) / 2;
  int is_first = ex % 2 ? 2 * x < ex : 2 * y < ey;
  int ox = is_first ? fx : sx, oy = is_first ? fy : sy, ax = is_first ? sx : fx, ay = is_first ? sy : fy;
  int slid = is_slid(p, q, fx, fy, sx, sy), black = is_black(p, q, fx, fy, sx, sy);
  wide reach = (wide)q->width * (black ? q->black_width : S) * p->resolution, unit = (wide)36 * S * S * (slid ? 2 : 1);
  if (is_shut(p, x, y) || !q->enabled || nearest * unit * unit > reach * reach || !apart(p, q, x, y, ax, ay)) return;
  if (!slid && density(p, ax, ay) >= density(p, ox, oy)) return;
  wide before = density(p, x, y), after = 0;
  long full[INKS];
  for (int c = 0; c < p->inks; c++) {
    long here = p->tints[c][y][x], there = p->tints[c][ay][ax];
    full[c] = spreads(p, c) && there > here ? there : here;
    if (counts(p, c)) after += (wide)p->density[c] * full[c];
  }
  wide share = before * S + (wide)q->scaling * (after - before);
  for (int c = 0; c < p->inks; c++)
    if (spreads(p, c)) p->news[c][y][x] = (long)(full[c] * share / (after * S));
}

static void trap_sheet(struct sheet *p) {
  for (int y = 0; y < p->height; y++)
    for (int x = 0; x < p->width; x++) {
      p->zone_at[y][x] = 0;
      for (int z = 1; z < p->zones; z++)
        if (winds(p, &p->zone[z], x, y)) p->zone_at[y][x] = z;
    }
  p->edges = 0;
  for (int y = 0; y < p->height; y++)
    for (int x = 0; x < p->width; x++) {
      p->right[y][x] = x + 1 < p->width && decides(p, x, y, x + 1, y);
      p->lower[y][x] = y + 1 < p->height && decides(p, x, y, x, y + 1);
      if (p->right[y][x]) p->edge_x[p->edges] = 2 * x + 1, p->edge_y[p->edges++] = 2 * y;
      if (p->lower[y][x]) p->edge_x[p->edges] = 2 * x, p->edge_y[p->edges++] = 2 * y + 1;
    }
  for (int y = 0; y < p->height; y++)
    for (int x = 0; x < p->width; x++) trap_sample(p, x, y);
}

/* How far an edge can trap, in half-samples. */
static long reach_of(const struct params *q, int resolution) {
  return (long)((wide)q->width * (q->black_width > S ? q->black_width : S) * resolution / ((wide)36 * S * S));
}

static long halo_of(const struct sheet *p) {
  long reach = 0;
  for (int z = 0; z < p->zones; z++) {
    long here = reach_of(&p->zone[z].params, p->resolution);
    if (p->zone[z].params.enabled && here > reach) reach = here;
  }
  return reach < 2 ? 1 : (reach + 1) / 2;
}

/* ---- texts */
struct told {
  char text[4096];
  size_t size;
};

__attribute__((format(printf, 2, 3))) static void tell(struct told *told, const char *form, ...) {
  va_list rest;
  va_start(rest, form);
  told->size += (size_t)vsnprintf(told->text + told->size, sizeof told->text - told->size, form, rest);
  va_end(rest);
}

/* The report of the samples of a core. */
static struct told report_of(const struct sheet *p, int left, int top, int width, int height) {
  struct told told = {.size = 0};
  long samples[ZONES] = {0}, changed[ZONES] = {0}, plates[INKS] = {0}, edges = 0;
  for (int y = top; y < top + height; y++)
    for (int x = left; x < left + width; x++) {
      int is_changed = 0;
      for (int c = 0; c < p->inks; c++)
        if (p->news[c][y][x] != p->tints[c][y][x]) is_changed = 1, plates[c]++;
      samples[p->zone_at[y][x]]++, changed[p->zone_at[y][x]] += is_changed, edges += p->right[y][x] + p->lower[y][x];
    }
  tell(&told, "trap report\npage %d %d %ld plates %d\n", p->width, p->height, p->maxval, p->inks);
  for (int z = 0; z < p->zones; z++) tell(&told, "zone %d samples %ld changed %ld\n", z, samples[z], changed[z]);
  tell(&told, "edges %ld\n", edges);
  for (int c = 0; c < p->inks; c++) tell(&told, "plate %s changed %ld\n", ink_names[c], plates[c]);
  tell(&told, "end\n");
  return told;
}

static void write_number(struct told *job, const char *name, long value) { tell(job, " /%s %ld.%04ld", name, value / S, value % S); }

static void write_params(struct told *job, const struct params *q) {
  tell(job, "<<");
  write_number(job, "TrapWidth", q->width), write_number(job, "BlackWidth", q->black_width);
  write_number(job, "BlackColorLimit", q->black_color), write_number(job, "BlackDensityLimit", q->black_density);
  write_number(job, "StepLimit", q->step), write_number(job, "SlidingTrapLimit", q->sliding);
  write_number(job, "TrapColorScaling", q->scaling);
  tell(job, " /Enabled %s >> settrapparams\n", q->enabled ? "true" : "false");
}

static void write_coordinate(struct told *job, long value) {
  tell(job, "%s%ld.%04ld ", value < 0 ? "-" : "", labs(value) / S, labs(value) % S);
}

static void write_job(struct sheet *p) {
  struct told job = {.size = 0};
  tell(&job, "<< /HWResolution [%d %d] /TrappingDetails << /Type 1001 /ColorantDetails <<\n", p->resolution, p->resolution);
  for (int c = 0; c < p->inks; c++) {
    tell(&job, "/%s <<", ink_names[c]);
    write_number(&job, "NeutralDensity", p->density[c]);
    tell(&job, " /ColorantType /%s >>\n", kind_names[p->kind[c]]);
  }
  tell(&job, ">> >> >> setpagedevice\n");
  for (int z = p->zones > 1 ? 1 : 0; z < p->zones; z++) {
    const struct zone *zone = &p->zone[z];
    write_params(&job, &zone->params);
    for (int k = 0; k < zone->vertices; k++) {
      write_coordinate(&job, zone->x[k]), write_coordinate(&job, zone->y[k]);
      tell(&job, k ? "lineto\n" : "moveto\n");
    }
    if (z) tell(&job, "settrapzone\n");
  }
  tell(&job, "showpage\n");
  memcpy(p->job, job.text, job.size), p->job_size = job.size;
}

/* ---- cases */
static void make_params(struct dice *dice, struct params *q, int resolution) {
  q->width = from_to(dice, 1, once_in(dice, 8) ? 20000 : 4000);
  q->black_width = once_in(dice, 2) ? S : from_to(dice, 1, 30000);
  while (reach_of(q, resolution) > MOST_REACH) q->width /= 2;
  q->black_color = from_to(dice, 0, S), q->black_density = from_to(dice, 10, 20000);
  q->step = from_to(dice, 0, once_in(dice, 3) ? S : 3000), q->sliding = from_to(dice, 0, S);
  q->scaling = once_in(dice, 2) ? S : from_to(dice, 0, S), q->enabled = !once_in(dice, 6);
}

static void make_zones(struct dice *dice, struct sheet *p) {
  p->zones = once_in(dice, 2) ? 1 : (int)from_to(dice, 2, ZONES);
  memset(p->zone, 0, sizeof p->zone);
  for (int z = 0; z < p->zones; z++) make_params(dice, &p->zone[z].params, p->resolution);
  if (p->zones > 1) p->zone[0].params.enabled = 0;
  long wide_points = (long)p->width * 720000 / p->resolution, tall_points = (long)p->height * 720000 / p->resolution;
  for (int z = 1; z < p->zones; z++) {
    struct zone *zone = &p->zone[z];
    zone->vertices = once_in(dice, 20) ? 0 : (int)from_to(dice, 1, VERTICES);
    /* half of the paths run through middles and corners of samples */
    long grid = once_in(dice, 2) ? 360000 / p->resolution : 1;
    for (int k = 0; k < zone->vertices; k++) {
      zone->x[k] = from_to(dice, -wide_points / 2, wide_points * 3 / 2) / grid * grid;
      zone->y[k] = from_to(dice, -tall_points / 2, tall_points * 3 / 2) / grid * grid;
    }
  }
}

static void make_tints(struct dice *dice, struct sheet *p) {
  long palette[4][INKS];
  for (int k = 0; k < 4; k++)
    for (int c = 0; c < p->inks; c++)
      palette[k][c] = once_in(dice, 2) ? 0 : once_in(dice, 2) ? p->maxval : from_to(dice, 0, p->maxval);
  int noise = once_in(dice, 6), cut_x = (int)from_to(dice, 0, p->width), cut_y = (int)from_to(dice, 0, p->height);
  for (int y = 0; y < p->height; y++)
    for (int x = 0; x < p->width; x++) {
      int k = noise ? (int)from_to(dice, 0, 3) : 2 * (x < cut_x) + (y < cut_y);
      for (int c = 0; c < p->inks; c++) p->tints[c][y][x] = palette[k][c];
    }
}

static void make_sheet(struct dice *dice, struct sheet *p, int bytes) {
  static const int resolutions[] = {72, 96, 100, 150, 200, 300, 600, 1200, 2400};
  p->width = (int)from_to(dice, 1, SIDE), p->height = (int)from_to(dice, 1, SIDE), p->inks = (int)from_to(dice, 1, INKS);
  p->resolution = resolutions[from_to(dice, 0, 8)];
  p->maxval = once_in(dice, 3) ? 255 : from_to(dice, 1, bytes == 1 ? 255 : 65535);
  for (int c = 0; c < p->inks; c++) {
    p->density[c] = from_to(dice, 10, 20000);
    p->kind[c] = once_in(dice, 4) ? (enum kind)from_to(dice, 0, 3) : NORMAL;
  }
  make_zones(dice, p), make_tints(dice, p), write_job(p);
}

/* ---- buffers against pages that nobody may touch */
struct buffer {
  unsigned char *room, *at;
  size_t size;
};

static int reserve(struct buffer *buffer) {
  unsigned char *whole = mmap(0, ROOM + 2 * PAGE, PROT_NONE, MAP_PRIVATE | MAP_ANONYMOUS, -1, 0);
  if (whole == MAP_FAILED || mprotect(whole + PAGE, ROOM, PROT_READ | PROT_WRITE)) return 0;
  buffer->room = whole + PAGE;
  memset(buffer->room, CANARY, ROOM);
  return 1;
}

/* Puts so many bytes against the end of the room, or against its start. */
static void *put(struct buffer *buffer, const void *bytes, size_t size, int at_end) {
  memset(buffer->room, CANARY, 4 * PAGE), memset(buffer->room + ROOM - 4 * PAGE, CANARY, 4 * PAGE);
  buffer->at = at_end ? buffer->room + ROOM - size : buffer->room, buffer->size = size;
  if (bytes) memcpy(buffer->at, bytes, size);
  return buffer->at;
}

static int is_canary(const unsigned char *from, const unsigned char *to) {
  while (from < to)
    if (*from++ != CANARY) return 0;
  return 1;
}

/* Whether all around the bytes is as it was, near both ends of the room. */
static int is_around(const struct buffer *buffer) {
  const unsigned char *end = buffer->at + buffer->size, *room = buffer->room, *last = room + ROOM;
  return is_canary(buffer->at == room ? end : room, buffer->at == room ? room + 4 * PAGE : room + 4 * PAGE) &&
         is_canary(last - 4 * PAGE, end == last ? buffer->at : last);
}

/* ---- calls */
struct thread {
  struct dice dice;
  struct buffer job, names, samples, text, place;
  struct sheet sheet;
  struct trap_job open;
  unsigned char before[2 * MOST_SAMPLES], wanted[2 * MOST_SAMPLES];
  unsigned long calls, done, refused;
};

static unsigned long wanted_calls, made;
static int is_wrong;

/* What a call is for: the part of the sheet that is its page or window, and how its samples lie. */
struct asked {
  int bytes, left, top, width, height, step;
  long maxval;
  size_t count;
  const char *names;
  const struct trap_place *place;
};

static size_t at(const struct asked *a, int c, int y, int x) { return ((size_t)c * a->height + y) * a->step + x; }

static void set_sample(unsigned char *samples, int bytes, size_t k, long value) {
  if (bytes == 1) samples[k] = (unsigned char)value;
  else memcpy(samples + 2 * k, &(uint16_t){(uint16_t)value}, 2);
}

/* Samples of a page or window, with random bytes between its rows; the core's are those after trapping if they are wanted so. */
static void fill_samples(struct thread *t, const struct asked *a) {
  const struct sheet *p = &t->sheet;
  for (size_t k = 0; k < a->count * a->bytes; k++) t->before[k] = (unsigned char)roll(&t->dice);
  memcpy(t->wanted, t->before, a->count * a->bytes);
  for (int c = 0; c < p->inks; c++)
    for (int y = 0; y < a->height; y++)
      for (int x = 0; x < a->width; x++) {
        const struct trap_place *w = a->place;
        int in_core = !w || (x >= (int)w->core_left && x < (int)(w->core_left + w->core_width) && y >= (int)w->core_top &&
                             y < (int)(w->core_top + w->core_height));
        long old = p->tints[c][a->top + y][a->left + x], new = p->news[c][a->top + y][a->left + x];
        set_sample(t->before, a->bytes, at(a, c, y, x), old), set_sample(t->wanted, a->bytes, at(a, c, y, x), in_core ? new : old);
      }
}

static char *joined(char *into, const struct sheet *p) {
  *into = 0;
  for (int c = 0; c < p->inks; c++) strcat(strcat(into, c ? "\n" : ""), ink_names[c]);
  return into;
}

/* The arguments of a call, as they lie in their buffers. */
struct lent {
  const struct asked *a;
  const char *job;
  size_t job_size;
  const char *names;
  void *samples;
  char *text;
  size_t text_size, *text_len;
  const struct trap_place *place;
};

static int call_page(const struct lent *l) {
  const struct asked *a = l->a;
  uint32_t w = a->width, h = a->height, step = a->step, maxval = (uint32_t)a->maxval;
  size_t ns = strlen(a->names);
  if (a->bytes == 1)
    return trap_planes8(l->job, l->job_size, l->names, ns, l->samples, a->count, w, h, step, maxval, l->text, l->text_size, l->text_len);
  return trap_planes16(l->job, l->job_size, l->names, ns, l->samples, a->count, w, h, step, maxval, l->text, l->text_size, l->text_len);
}

static int call_window(const struct lent *l) {
  const struct asked *a = l->a;
  uint32_t w = a->width, h = a->height, step = a->step, maxval = (uint32_t)a->maxval;
  size_t ns = strlen(a->names);
  if (a->bytes == 1)
    return trap_window8(l->job, l->job_size, l->names, ns, l->samples, a->count, w, h, step, maxval, l->place, l->text, l->text_size,
                        l->text_len);
  return trap_window16(l->job, l->job_size, l->names, ns, l->samples, a->count, w, h, step, maxval, l->place, l->text, l->text_size,
                       l->text_len);
}

/* Whether the counts are those of the text. */
static int are_counts_of(const struct trap_report *report, const char *text, size_t len) {
  char told[LIBTRAP_TEXT_SIZE], *at = told;
  for (unsigned z = 0; z < report->zones; z++)
    at += sprintf(at, "zone %u samples %llu changed %llu\n", z, (unsigned long long)report->zone_samples[z],
                  (unsigned long long)report->zone_changed[z]);
  at += sprintf(at, "edges %llu\n", (unsigned long long)report->edges);
  const char *from = memchr(text, 'z', len), *plates;
  if (!from || (size_t)(text + len - from) < (size_t)(at - told) || memcmp(from, told, (size_t)(at - told))) return 0;
  plates = from + (at - told);
  for (unsigned c = 0; c < report->planes; c++) {
    const char *end = memchr(plates, '\n', (size_t)(text + len - plates)), *word = end;
    while (word && word[-1] != ' ') word--;
    if (!end || strtoull(word, 0, 10) != report->plane_changed[c]) return 0;
    plates = end + 1;
  }
  return report->size == sizeof *report && text + len - plates == 4 && !memcmp(plates, "end\n", 4);
}

/* Whether no count is told, or those of the text are, as far as it fits: what a call's structs say has to agree with its status. */
static int agrees(const struct lent *l, int got, const struct trap_report *report, const struct trap_error *error) {
  static const struct trap_report none = LIBTRAP_NO_REPORT;
  if (error->status != (uint32_t)got || error->kind / 100 != (uint32_t)got || error->size != sizeof *error || error->rows) return 0;
  if (got != LIBTRAP_DONE) return !memcmp(report, &none, sizeof none);
  return *l->text_len > l->text_size || are_counts_of(report, l->text, *l->text_len);
}

/* A call by the open job. */
static int call_opened(const struct lent *l, struct trap_job *open) {
  struct trap_report report = LIBTRAP_NO_REPORT;
  struct trap_error error = LIBTRAP_NO_ERROR;
  const struct asked *a = l->a;
  uint32_t w = a->width, h = a->height, step = a->step, maxval = (uint32_t)a->maxval;
  size_t ns = strlen(a->names);
  int got;
  if (a->bytes == 1)
    got = trap_open_window8(open, l->names, ns, l->samples, a->count, w, h, step, maxval, l->place, l->text, l->text_size, l->text_len,
                            &report, &error);
  else
    got = trap_open_window16(open, l->names, ns, l->samples, a->count, w, h, step, maxval, l->place, l->text, l->text_size, l->text_len,
                             &report, &error);
  return agrees(l, got, &report, &error) ? got : -1;
}

/* Makes the call, and compares all that it did with the status, the text and the samples that are wanted. */
static int is_right(struct thread *t, const struct asked *a, size_t job_size, int status, const struct told *told, const void *wanted) {
  int at_end = (int)from_to(&t->dice, 0, 1);
  size_t text_size = once_in(&t->dice, 3) ? (size_t)from_to(&t->dice, 0, 40) : 2048, text_len = 99;
  const char *job = put(&t->job, t->sheet.job, job_size, at_end), *names = put(&t->names, a->names, strlen(a->names), at_end);
  void *samples = put(&t->samples, t->before, a->count * a->bytes, at_end);
  char *text = put(&t->text, 0, text_size, at_end);
  const struct trap_place *place = a->place ? put(&t->place, a->place, sizeof *a->place, at_end) : 0;
  memset(text, CANARY, text_size);
  struct lent lent = {a, job, job_size, names, samples, text, text_size, &text_len, place};
  int got = !place ? call_page(&lent) : once_in(&t->dice, 2) ? call_window(&lent) : call_opened(&lent, &t->open);
  t->calls++, got ? t->refused++ : t->done++;
  size_t fits = text_len < text_size ? text_len : text_size;
  int is_told = !told || (text_len == told->size && !memcmp(text, told->text, fits));
  int is_kept = !memcmp(samples, wanted, a->count * a->bytes) && !memcmp(job, t->sheet.job, job_size) && !memcmp(names, a->names, strlen(a->names)) &&
                (!place || !memcmp(place, a->place, sizeof *place)) && is_canary((unsigned char *)text + fits, (unsigned char *)text + text_size);
  int is_beside = is_around(&t->job) && is_around(&t->names) && is_around(&t->samples) && is_around(&t->text) && (!place || is_around(&t->place));
  if (got == status && is_told && is_kept && is_beside) return 1;
  fprintf(stderr, "random: status %d, and not %d; text %s, samples and arguments %s, around them %s; %s of %d by %d, %d inks, %d bytes a sample\n%.*s\n%.*s",
          got, status, is_told ? "right" : "wrong", is_kept ? "right" : "wrong", is_beside ? "right" : "wrong", place ? "window" : "page",
          a->width, a->height, t->sheet.inks, a->bytes, (int)fits, text, (int)job_size, t->sheet.job);
  return 0;
}

static struct asked whole(struct thread *t, int bytes, const char *names) {
  const struct sheet *p = &t->sheet;
  struct asked a = {.bytes = bytes, .width = p->width, .height = p->height, .maxval = p->maxval, .names = names};
  a.step = p->width + (int)from_to(&t->dice, 0, STEP_MORE);
  a.count = (size_t)p->inks * a.height * a.step;
  return a;
}

static int is_page_right(struct thread *t, int bytes, const char *names) {
  struct asked a = whole(t, bytes, names);
  struct told told = report_of(&t->sheet, 0, 0, a.width, a.height);
  fill_samples(t, &a);
  return is_right(t, &a, t->sheet.job_size, LIBTRAP_DONE, &told, t->wanted);
}

/* The halo of the job's bytes; and of the job, which is opened for the windows. */
static int is_halo_right(struct thread *t) {
  const struct sheet *p = &t->sheet;
  uint32_t halo = 0;
  size_t text_len = 9;
  char *text = put(&t->text, 0, 64, 0);
  const char *job = put(&t->job, p->job, p->job_size, 1);
  int got = trap_halo(job, p->job_size, &halo, text, 64, &text_len);
  t->calls++, t->done++;
  uint32_t other = 0;
  size_t other_len = 9;
  got = got ? got : trap_open(job, p->job_size, &t->open, text, 64, &other_len, 0);
  got = got ? got : trap_open_halo(&t->open, &other);
  int is_told = halo == halo_of(p) && other == halo && !text_len && !other_len;
  if (got == LIBTRAP_DONE && is_told && is_around(&t->text) && is_around(&t->job)) return 1;
  return fprintf(stderr, "random: halo %u, and not %ld\n%.*s", halo, halo_of(p), (int)p->job_size, p->job), 0;
}

/* A window along one side of the sheet: where its core and the window begin and end. With `less` it lacks a sample of its halo, if
 * that may be. */
struct along {
  int from, to, core_from, core_to;
};

static struct along along_of(struct dice *dice, int side, int halo, int *less) {
  struct along a;
  a.core_from = (int)from_to(dice, 0, side - 1), a.core_to = (int)from_to(dice, a.core_from + 1, side);
  a.from = a.core_from - halo - (int)from_to(dice, 0, 2), a.to = a.core_to + halo + (int)from_to(dice, 0, 2);
  if (a.from < 0) a.from = 0;
  if (a.to > side) a.to = side;
  if (a.to == a.from) a.to < side ? a.to++ : a.from--;
  if (*less && a.core_from - halo + 1 > 0 && halo > 0) a.from = a.core_from - halo + 1, *less = 0;
  else if (*less && a.core_to + halo - 1 < side) a.to = a.core_to + halo - 1 > a.from ? a.core_to + halo - 1 : a.from + 1, *less = a.to >= a.core_to + halo;
  return a;
}

static int is_window_right(struct thread *t, int bytes, const char *names) {
  const struct sheet *p = &t->sheet;
  int halo = (int)halo_of(p), less = once_in(&t->dice, 6), asks_less = less;
  struct along x = along_of(&t->dice, p->width, halo, &less), y = along_of(&t->dice, p->height, halo, &less);
  int is_short = asks_less && !less;
  struct trap_place place = {(uint32_t)p->width, (uint32_t)p->height, (uint32_t)x.from, (uint32_t)y.from, (uint32_t)(x.core_from - x.from),
                             (uint32_t)(y.core_from - y.from), (uint32_t)(x.core_to - x.core_from), (uint32_t)(y.core_to - y.core_from)};
  struct asked a = whole(t, bytes, names);
  a.left = x.from, a.top = y.from, a.width = x.to - x.from, a.height = y.to - y.from;
  a.step = a.width + (int)from_to(&t->dice, 0, STEP_MORE), a.count = (size_t)p->inks * a.height * a.step, a.place = &place;
  if (once_in(&t->dice, 10)) place.core_width = once_in(&t->dice, 2) ? 0 : (uint32_t)(a.width - (int)place.core_left + 1), is_short = 1;
  fill_samples(t, &a);
  struct told told = {.size = 0};
  if (is_short) tell(&told, "call: Place\n");
  else told = report_of(p, x.core_from, y.core_from, x.core_to - x.core_from, y.core_to - y.core_from);
  return is_right(t, &a, p->job_size, is_short ? LIBTRAP_CALL : LIBTRAP_DONE, &told, is_short ? t->before : t->wanted);
}

/* A call with one thing that is wrong. */
static int is_refusal_right(struct thread *t, int bytes, const char *names) {
  struct asked a = whole(t, bytes, names);
  struct told told = {.size = 0};
  char spoiled[256];
  size_t job_size = t->sheet.job_size;
  int status = LIBTRAP_CALL;
  fill_samples(t, &a);
  switch (from_to(&t->dice, 0, 7)) {
    case 0: snprintf(spoiled, sizeof spoiled, "%s\n", names), a.names = spoiled, tell(&told, "call: Names\n"); break;
    case 1: snprintf(spoiled, sizeof spoiled, "%s\nA(", names), a.names = spoiled, tell(&told, "call: Names\n"); break;
    case 2: once_in(&t->dice, 2) ? (a.width = 0) : (a.height = LIBTRAP_MOST_SIDE + 1), tell(&told, "call: Sides\n"); break;
    case 3: a.step = a.width - 1, tell(&told, "call: Step\n"); break;
    case 4: a.maxval = once_in(&t->dice, 2) ? 0 : bytes == 1 ? 256 : 65536, tell(&told, "call: Maxval\n"); break;
    case 5: a.count--, tell(&told, "call: Samples\n"); break;
    case 6:
      status = LIBTRAP_JOB, job_size = (size_t)from_to(&t->dice, 0, (long)job_size - 9);
      return is_right(t, &a, job_size, status, 0, t->before);
    default: {
      long most = bytes == 1 ? 255 : 65535;
      int c = (int)from_to(&t->dice, 0, t->sheet.inks - 1), y = (int)from_to(&t->dice, 0, a.height - 1), x = (int)from_to(&t->dice, 0, a.width - 1);
      if (a.maxval == most) return 1;
      set_sample(t->before, bytes, at(&a, c, y, x), from_to(&t->dice, a.maxval + 1, most));
      status = LIBTRAP_PAGE, tell(&told, "plate %d: SampleAboveMaxval at %d\n", c, y * a.width + x);
    }
  }
  return is_right(t, &a, job_size, status, &told, t->before);
}

static int is_case_right(struct thread *t) {
  char names[256];
  int bytes = (int)from_to(&t->dice, 1, 2);
  make_sheet(&t->dice, &t->sheet, bytes);
  trap_sheet(&t->sheet);
  joined(names, &t->sheet);
  int right = is_page_right(t, bytes, names) && is_halo_right(t);
  for (int k = 0; right && k < 6; k++) right = is_window_right(t, bytes, names);
  for (int k = 0; right && k < 2; k++) right = is_refusal_right(t, bytes, names);
  trap_close(&t->open);
  return right;
}

static void *run(void *given) {
  struct thread *t = given;
  while (!__atomic_load_n(&is_wrong, __ATOMIC_RELAXED) && __atomic_load_n(&made, __ATOMIC_RELAXED) < wanted_calls) {
    unsigned long before = t->calls;
    if (!is_case_right(t)) __atomic_store_n(&is_wrong, 1, __ATOMIC_RELAXED);
    __atomic_add_fetch(&made, t->calls - before, __ATOMIC_RELAXED);
  }
  return 0;
}

int main(int count, char **words) {
  if (count != 4) return fprintf(stderr, "usage: random CALLS SEED THREADS\n"), 2;
  wanted_calls = strtoul(words[1], 0, 10);
  unsigned long seed = strtoul(words[2], 0, 10), threads = strtoul(words[3], 0, 10), done = 0, refused = 0;
  struct thread *all = calloc(threads, sizeof *all);
  pthread_t *ids = calloc(threads, sizeof *ids);
  if (!all || !ids) return 2;
  for (unsigned long k = 0; k < threads; k++) {
    struct thread *t = &all[k];
    t->dice.state = seed * 1000003 + k;
    if (!reserve(&t->job) || !reserve(&t->names) || !reserve(&t->samples) || !reserve(&t->text) || !reserve(&t->place)) return 2;
    if (pthread_create(&ids[k], 0, run, t)) return 2;
  }
  for (unsigned long k = 0; k < threads; k++) pthread_join(ids[k], 0), done += all[k].done, refused += all[k].refused;
  if (!is_wrong) printf("library: %lu random calls by %lu threads, %lu done and %lu refused: 0 different\n", done + refused, threads, done, refused);
  free(all), free(ids);
  return is_wrong;
}
