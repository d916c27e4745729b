/* SPDX-License-Identifier: Apache-2.0 */
/* calls.c: what C calls. The proved functions take no null pointer, and cannot test for one. So each function here answers
 * "call: Null" if a pointer is null that its size says is needed, and else calls the proved function of its name, which library/build
 * renames to proved_ and that name. A null pointer of size 0 is passed on as the address of nothing. */
#include "trap.h"

#define PROVED(name) extern __typeof__(name) proved_##name

PROVED(trap_planes8);
PROVED(trap_planes16);
PROVED(trap_halo);
PROVED(trap_window8);
PROVED(trap_window16);
PROVED(trap_open);
PROVED(trap_share);
PROVED(trap_close);
PROVED(trap_open_halo);
PROVED(trap_job_info);
PROVED(trap_open_window8);
PROVED(trap_open_window16);

static const char line[] = "call: Null\n";
static const uint64_t empty = 0;

/* What is passed on for a buffer: its own address, or that of nothing if it is null. */
#define HELD(type, at) ((at) ? (at) : (type *)(uintptr_t)&empty)
#define LACKS(at, size) (!(at) && (size) != 0)

/* Writes as much of the line as fits, and its length, if there is where. */
static trap_status refuse(char *text, size_t text_size, size_t *text_len) {
  size_t size = sizeof line - 1;
  for (size_t k = 0; text && k < size && k < text_size; k++) text[k] = line[k];
  if (text_len) *text_len = size;
  return LIBTRAP_CALL;
}

#define TEXT_LACKS (LACKS(text, text_size) || !text_len)

/* Says in the caller's struct, if there is one of the right size, that a pointer is null. */
static trap_status say(struct trap_error *error) {
  static const struct trap_error null = {sizeof null, LIBTRAP_CALL, LIBTRAP_KIND_NULL, LIBTRAP_NO_NUMBER,
                                         LIBTRAP_NO_NUMBER, LIBTRAP_NO_NUMBER, LIBTRAP_NO_OFFSET, 0};
  if (error && error->size == sizeof null) *error = null;
  return LIBTRAP_CALL;
}

#define TRAP_PAGE(name, type)                                                                                                     \
  trap_status name(const char *job, size_t job_size, const char *names, size_t names_size, type *samples, size_t sample_count,     \
                   uint32_t width, uint32_t height, uint32_t step, uint32_t maxval, char *text, size_t text_size,                  \
                   size_t *text_len) {                                                                                            \
    if (LACKS(job, job_size) || LACKS(names, names_size) || LACKS(samples, sample_count) || TEXT_LACKS)                            \
      return refuse(text, text_size, text_len);                                                                                   \
    return proved_##name(HELD(const char, job), job_size, HELD(const char, names), names_size, HELD(type, samples), sample_count,  \
                         width, height, step, maxval, HELD(char, text), text_size, text_len);                                     \
  }

#define TRAP_WINDOW(name, type)                                                                                                   \
  trap_status name(const char *job, size_t job_size, const char *names, size_t names_size, type *samples, size_t sample_count,     \
                   uint32_t width, uint32_t height, uint32_t step, uint32_t maxval, const struct trap_place *place, char *text,    \
                   size_t text_size, size_t *text_len) {                                                                          \
    if (LACKS(job, job_size) || LACKS(names, names_size) || LACKS(samples, sample_count) || !place || TEXT_LACKS)                  \
      return refuse(text, text_size, text_len);                                                                                   \
    return proved_##name(HELD(const char, job), job_size, HELD(const char, names), names_size, HELD(type, samples), sample_count,  \
                         width, height, step, maxval, place, HELD(char, text), text_size, text_len);                              \
  }

#define TRAP_OPEN_WINDOW(name, type)                                                                                              \
  trap_status name(struct trap_job *handle, const char *names, size_t names_size, type *samples, size_t sample_count,             \
                   uint32_t width, uint32_t height, uint32_t step, uint32_t maxval, const struct trap_place *place, char *text,   \
                   size_t text_size, size_t *text_len, struct trap_report *report, struct trap_error *error) {                    \
    struct trap_report unread = LIBTRAP_NO_REPORT;                                                                                \
    struct trap_error unheard = LIBTRAP_NO_ERROR;                                                                                 \
    if (!handle || LACKS(names, names_size) || LACKS(samples, sample_count) || !place || TEXT_LACKS)                              \
      return say(error), refuse(text, text_size, text_len);                                                                       \
    return proved_##name(handle, HELD(const char, names), names_size, HELD(type, samples), sample_count, width, height, step,     \
                         maxval, place, HELD(char, text), text_size, text_len, report ? report : &unread,                         \
                         error ? error : &unheard);                                                                               \
  }

TRAP_PAGE(trap_planes8, uint8_t)
TRAP_PAGE(trap_planes16, uint16_t)
TRAP_WINDOW(trap_window8, uint8_t)
TRAP_WINDOW(trap_window16, uint16_t)
TRAP_OPEN_WINDOW(trap_open_window8, uint8_t)
TRAP_OPEN_WINDOW(trap_open_window16, uint16_t)

trap_status trap_halo(const char *job, size_t job_size, uint32_t *halo, char *text, size_t text_size, size_t *text_len) {
  if (LACKS(job, job_size) || !halo || TEXT_LACKS) return refuse(text, text_size, text_len);
  return proved_trap_halo(HELD(const char, job), job_size, halo, HELD(char, text), text_size, text_len);
}

trap_status trap_open(const char *job, size_t job_size, struct trap_job *handle, char *text, size_t text_size, size_t *text_len,
                      struct trap_error *error) {
  struct trap_error unheard = LIBTRAP_NO_ERROR;
  if (LACKS(job, job_size) || !handle || TEXT_LACKS) return say(error), refuse(text, text_size, text_len);
  return proved_trap_open(HELD(const char, job), job_size, handle, HELD(char, text), text_size, text_len, error ? error : &unheard);
}

trap_status trap_share(struct trap_job *handle, struct trap_job *other, struct trap_error *error) {
  struct trap_error unheard = LIBTRAP_NO_ERROR;
  return handle && other ? proved_trap_share(handle, other, error ? error : &unheard) : say(error);
}

void trap_close(struct trap_job *handle) {
  if (handle) proved_trap_close(handle);
}

trap_status trap_open_halo(struct trap_job *handle, uint32_t *halo) {
  return handle && halo ? proved_trap_open_halo(handle, halo) : LIBTRAP_CALL;
}

trap_status trap_job_info(struct trap_job *handle, struct trap_info *info, struct trap_error *error) {
  struct trap_error unheard = LIBTRAP_NO_ERROR;
  return handle && info ? proved_trap_job_info(handle, info, error ? error : &unheard) : say(error);
}
