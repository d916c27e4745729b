/* SPDX-License-Identifier: Apache-2.0 */
/* trap.h - the trapping engine for C and C++ programs: libtrap.
 *
 * A call traps the planes of one page in place, in memory, or the core of one window of a sheet. It opens no file, starts no
 * thread and keeps no state but in an open job. So any number of threads may call at once, each with its own samples and its
 * own open job. It allocates by malloc, and frees all but the memory of an open job before it returns. docs/LIBRARY.md says
 * what is guaranteed and what a call costs.
 *
 * C99 or C++98, x86-64 with SSE4.2, Linux.
 */
#ifndef LIBTRAP_H
#define LIBTRAP_H

#include <stddef.h>
#include <stdint.h>

#ifdef __cplusplus
extern "C" {
#endif

/* What a call returns. The numbers are the exit statuses of the program trap. Names of constants begin with LIBTRAP_, since
 * <signal.h> has TRAP_ names of its own. */
#define LIBTRAP_DONE 0   /* the planes are trapped, and the text is the report */
#define LIBTRAP_CALL 2   /* an argument is wrong: "call: Null", "Size", "Handle", "Names", "Sides", "Step", "Maxval", "Samples" or
                          * "Place", the first */
#define LIBTRAP_JOB 3    /* the job has a fault, or lacks the details of a plane's colorant */
#define LIBTRAP_PAGE 4   /* a sample is above the maxval, the planes do not form a page, or a zone is too far from a window */
#define LIBTRAP_MEMORY 7 /* malloc returned null: "out of memory" */

/* The type of a status; the functions return one byte. */
typedef uint8_t trap_status;

/* The kinds of errors. Each line of an error has one; its hundreds are the status. trap_kind_name names them. */
/* Made of library/kinds.txt by tools/pages. */
enum trap_kind {
  LIBTRAP_KIND_NONE = 0, /* done */
  LIBTRAP_KIND_NULL = 201, /* call: Null */
  LIBTRAP_KIND_SIZE = 202, /* call: Size */
  LIBTRAP_KIND_HANDLE = 203, /* call: Handle */
  LIBTRAP_KIND_NAMES = 204, /* call: Names */
  LIBTRAP_KIND_SIDES = 205, /* call: Sides */
  LIBTRAP_KIND_STEP = 206, /* call: Step */
  LIBTRAP_KIND_MAXVAL = 207, /* call: Maxval */
  LIBTRAP_KIND_SAMPLES = 208, /* call: Samples */
  LIBTRAP_KIND_PLACE = 209, /* call: Place */
  LIBTRAP_KIND_JOB_TOO_LONG = 301, /* job: JobTooLong at OFFSET */
  LIBTRAP_KIND_BAD_TOKEN = 302, /* job: BadToken at OFFSET */
  LIBTRAP_KIND_NUMBER_TOO_LARGE = 303, /* job: NumberTooLarge at OFFSET */
  LIBTRAP_KIND_UNCLOSED = 304, /* job: Unclosed at OFFSET */
  LIBTRAP_KIND_UNMATCHED = 305, /* job: Unmatched at OFFSET */
  LIBTRAP_KIND_ODD_DICTIONARY = 306, /* job: OddDictionary at OFFSET */
  LIBTRAP_KIND_KEY_NOT_NAME = 307, /* job: KeyNotName at OFFSET */
  LIBTRAP_KIND_NAME_INSIDE = 308, /* job: NameInside at OFFSET */
  LIBTRAP_KIND_TOO_DEEP = 309, /* job: TooDeep at OFFSET */
  LIBTRAP_KIND_WRONG_KIND = 310, /* job: WrongKind NAME at OFFSET */
  LIBTRAP_KIND_OUT_OF_RANGE = 311, /* job: OutOfRange NAME at OFFSET */
  LIBTRAP_KIND_NOT_DICTIONARY = 312, /* job: NotDictionary at OFFSET */
  LIBTRAP_KIND_MISSING_KEY = 313, /* job: MissingKey at OFFSET */
  LIBTRAP_KIND_WRONG_TYPE = 314, /* job: WrongType at OFFSET */
  LIBTRAP_KIND_BAD_DENSITY = 315, /* job: BadDensity at OFFSET */
  LIBTRAP_KIND_BAD_KIND = 316, /* job: BadKind at OFFSET */
  LIBTRAP_KIND_BAD_RESOLUTION = 317, /* job: BadResolution at OFFSET */
  LIBTRAP_KIND_UNKNOWN_OPERATOR = 318, /* job: UnknownOperator at OFFSET */
  LIBTRAP_KIND_WRONG_OPERANDS = 319, /* job: WrongOperands at OFFSET */
  LIBTRAP_KIND_NO_CURRENT_POINT = 320, /* job: NoCurrentPoint at OFFSET */
  LIBTRAP_KIND_COORDINATE_RANGE = 321, /* job: CoordinateRange at OFFSET */
  LIBTRAP_KIND_TOO_MANY_VERTICES = 322, /* job: TooManyVertices at OFFSET */
  LIBTRAP_KIND_TOO_MANY_ZONES = 323, /* job: TooManyZones at OFFSET */
  LIBTRAP_KIND_NO_PAGE_DEVICE = 324, /* job: NoPageDevice at OFFSET */
  LIBTRAP_KIND_AFTER_SHOWPAGE = 325, /* job: AfterShowpage at OFFSET */
  LIBTRAP_KIND_NO_SHOWPAGE = 326, /* job: NoShowpage at OFFSET */
  LIBTRAP_KIND_NO_DETAILS = 327, /* job: NoDetails for plate PLATE */
  LIBTRAP_KIND_SAMPLE_ABOVE_MAXVAL = 401, /* plate PLATE: SampleAboveMaxval at OFFSET */
  LIBTRAP_KIND_TOO_MANY_SAMPLES = 404, /* page: TooManySamples */
  LIBTRAP_KIND_REACH_TOO_WIDE = 405, /* page: ReachTooWide zone ZONE */
  LIBTRAP_KIND_FAR = 406, /* sheet: Far in zone ZONE */
  LIBTRAP_KIND_OUT_OF_MEMORY = 701 /* out of memory */
};

/* The trapping parameters that an error can name. */
enum trap_parameter {
  LIBTRAP_PARAMETER_TRAP_WIDTH = 1,
  LIBTRAP_PARAMETER_BLACK_WIDTH = 2,
  LIBTRAP_PARAMETER_BLACK_COLOR_LIMIT = 3,
  LIBTRAP_PARAMETER_BLACK_DENSITY_LIMIT = 4,
  LIBTRAP_PARAMETER_STEP_LIMIT = 5,
  LIBTRAP_PARAMETER_SLIDING_TRAP_LIMIT = 6,
  LIBTRAP_PARAMETER_TRAP_COLOR_SCALING = 7,
  LIBTRAP_PARAMETER_ENABLED = 8,
  LIBTRAP_PARAMETER_TRAPPING = 9
};
/* End of what is made. */

/* What stands in struct trap_error where the line names no plane, zone or parameter, or has no offset. */
#define LIBTRAP_NO_NUMBER ((uint32_t)-1)
#define LIBTRAP_NO_OFFSET ((uint64_t)-1)

/* What a call over an open job says of its error, beside the text. Begin with LIBTRAP_NO_ERROR, which sets the size. The call sets
 * all other fields, also if it is done. Pass null if you do not want it. */
struct trap_error {
  uint32_t size;   /* sizeof(struct trap_error), set by the caller */
  uint32_t status; /* what the call returned */
  uint32_t kind;   /* of enum trap_kind */
  uint32_t plate;  /* the plane that the line names, counted from 0; or LIBTRAP_NO_NUMBER */
  uint32_t zone;   /* the zone that it names; or LIBTRAP_NO_NUMBER */
  uint32_t name;   /* the trapping parameter that it names, of enum trap_parameter; or LIBTRAP_NO_NUMBER */
  uint64_t offset; /* the number at its end: a byte of the job, or a sample of the plane; or LIBTRAP_NO_OFFSET */
  uint64_t rows;   /* how many rows were trapped before the error: 0, since these calls trap all or nothing */
};

#define LIBTRAP_NO_ERROR {sizeof(struct trap_error), 0, 0, 0, 0, 0, 0, 0}

/* A buffer of this size holds every report and every error line: a report has a line for each of at most 251 zones and 16
 * planes. */
#define LIBTRAP_TEXT_SIZE 16384

/* The version of this header; trap_version() returns that of the library. */
#define LIBTRAP_VERSION 900 /* 0.9.0: 10,000 times the first number, 100 times the second, and the third */

#define LIBTRAP_MOST_PLANES 16
#define LIBTRAP_MOST_SIDE 16384
#define LIBTRAP_MOST_SAMPLES 160000000 /* names * width * height: of all planes of a page or of a window together */
#define LIBTRAP_MOST_SHEET_SIDE 262144

/* trap_planes8, trap_planes16: trap the planes of a page, of samples of one byte or of two in the machine's order.
 *
 *   job, job_size       the bytes of the job: inks, zones and trapping parameters (docs/JOBS.md); read, never written. At most 1,048,576 bytes.
 *   names, names_size   the names of the planes' colorants as in the job, with an LF between two and none at the end:
 *                       "Cyan\nMagenta\nYellow\nBlack". 1 to 16 names, none twice, each of 1 to 64 bytes from 33 to 126
 *                       without ( ) < > [ ] { } / and %. Replace other bytes in the same way in the job and here.
 *   samples             the planes, one after the other in the order of the names, each row by row from the top, each row from
 *                       the left. 0 is no ink, maxval is full ink. The trapped planes replace them.
 *   sample_count        the number of samples, not bytes: names * height * step.
 *   width, height       the sides of the page in samples, 1 to 16,384 each. All planes together have at most 160,000,000 samples:
 *                       A4 at 600 dpi in four inks, not in five. Trap anything larger by trap_window8 or trap_window16.
 *   step                the stride: the distance from the start of a row to that of the next in samples, at least width. The padding
 *                       between rows may be anything, and is not changed.
 *   maxval              the tint of full ink: 1 to 255 for trap_planes8, 1 to 65,535 for trap_planes16. A sample above it is
 *                       refused.
 *   text, text_size     receives the report, or the error line: each line ends with an LF, and no NUL follows. As much as
 *                       fits is written; the rest of the buffer is not changed.
 *   text_len            is set to the full length of that text in bytes, above text_size if it did not fit.
 *
 * Returns LIBTRAP_DONE, and the samples are those that the trapping rule gives; or another status, and no sample is changed. A null
 * pointer is "call: Null", before all else, but for one whose size is 0.
 *
 * What the caller must ensure, and nothing checks:
 *   - Each pointer points to as many elements as the size after it says, aligned for them.
 *   - samples, text and what a pointer to one struct or number points to share no byte with each other, with job or with names.
 *   - Until the call returns, no other thread accesses what the call writes: samples, text, *text_len, *handle, *other, *halo, *info, *report, *error;
 *     and none writes job, names or *place.
 *   - *handle is LIBTRAP_NO_JOB, or as the library left it.
 *   - malloc, realloc and free are one allocator, and align blocks to 16 bytes as the C library's do.
 *   - The call is not made from a signal handler, nor in a forked child of a program with threads.
 *   - The calling thread has 64 KB of stack left.
 */
trap_status trap_planes8(const char *job, size_t job_size, const char *names, size_t names_size,
                         uint8_t *samples, size_t sample_count,
                         uint32_t width, uint32_t height, uint32_t step, uint32_t maxval,
                         char *text, size_t text_size, size_t *text_len);

trap_status trap_planes16(const char *job, size_t job_size, const char *names, size_t names_size,
                          uint16_t *samples, size_t sample_count,
                          uint32_t width, uint32_t height, uint32_t step, uint32_t maxval,
                          char *text, size_t text_size, size_t *text_len);

/* The place of a window on its sheet, and of its core in the window, in samples: columns from the left, rows from the top,
 * counted from 0. */
struct trap_place {
  uint32_t sheet_width, sheet_height; /* the sheet's sides, 1 to 262,144 each */
  uint32_t left, top;                 /* the window's first column and row on the sheet */
  uint32_t core_left, core_top;       /* the core's first column and row in the window */
  uint32_t core_width, core_height;   /* the core's sides */
};

/* trap_halo: the rows and columns that a window needs around its core, on each side that is not a border of the sheet.
 *
 *   job, job_size       the bytes of the job, as above.
 *   halo                is set to that number. Do not compute it: it is the reach of the job's widest trap, rounded to the nearest
 *                       whole number of samples, and 1 at least.
 *   text, text_size, text_len   as above. The text is empty, or the error line.
 *
 * Returns LIBTRAP_DONE; or LIBTRAP_JOB or LIBTRAP_MEMORY, and *halo is not changed. A number above 128 is returned only for a job whose
 * traps reach too far for any page; the call of a window then fails.
 */
trap_status trap_halo(const char *job, size_t job_size, uint32_t *halo,
                      char *text, size_t text_size, size_t *text_len);

/* trap_window8, trap_window16: trap the core of a window of a sheet, in place.
 *
 * The arguments are those of trap_planes8 and trap_planes16, for the window in place of the page: width and height are the
 * window's. The place must be valid:
 *   - The window is on the sheet, and the core in the window. The core has at least one column and one row.
 *   - On each side that is not a border of the sheet, the window extends at least trap_halo samples beyond its core.
 *   - If the job has zones (settrapzone, with a path or without), the window's left and lower sides lie on a grid, which is
 *     counted from the sheet's lower left corner. Its lines are resolution / gcd(resolution, 720000) samples apart: 1 at most
 *     common resolutions (72, 96, 150, 300, 600, 1200, 2400), and 127 at 2540.
 *
 * Returns LIBTRAP_DONE, and each sample of the core is what the trapping rule gives for the whole sheet, whatever lies beyond the
 * window; all other samples are unchanged. The text is the core's part of the report: its line "page" has the sheet's sides, and
 * the counts of cores that tile a sheet add up to those of the sheet. Otherwise it returns another status, and no sample is
 * changed; "sheet: Far in zone 1" (LIBTRAP_PAGE) means that the zone has a vertex more than a million points from the window's lower
 * left corner, in x or in y.
 *
 * The halo must have untrapped samples: if windows of one raster overlap, copy what a window needs before you trap a neighbour,
 * as examples/library/tiles.c and bands.c do. The planes of a window lie height * step samples apart, so a window of a raster of
 * several planes is always a copy.
 */
trap_status trap_window8(const char *job, size_t job_size, const char *names, size_t names_size,
                         uint8_t *samples, size_t sample_count,
                         uint32_t width, uint32_t height, uint32_t step, uint32_t maxval,
                         const struct trap_place *place,
                         char *text, size_t text_size, size_t *text_len);

trap_status trap_window16(const char *job, size_t job_size, const char *names, size_t names_size,
                          uint16_t *samples, size_t sample_count,
                          uint32_t width, uint32_t height, uint32_t step, uint32_t maxval,
                          const struct trap_place *place,
                          char *text, size_t text_size, size_t *text_len);

/* An open job: the library has read it once, for any number of windows. Begin with LIBTRAP_NO_JOB; only the library writes the
 * fields. Do not copy it: a copy is not another open job. Each thread has a handle of its own, by trap_share. */
struct trap_job {
  void *inner;
  uint8_t is_open;
};

#define LIBTRAP_NO_JOB {0, 0}

/* trap_open: reads a job and keeps it open until trap_close.
 *
 *   job, job_size       the bytes of the job, as above. They are copied.
 *   handle              is opened. If it is open already, the answer is "call: Handle".
 *   text, text_size, text_len   as above. The text is empty, or the error line.
 *   error               is set to what the line says; may be null.
 *
 * Returns LIBTRAP_DONE; or LIBTRAP_CALL, LIBTRAP_JOB or LIBTRAP_MEMORY, and *handle is not changed.
 */
trap_status trap_open(const char *job, size_t job_size, struct trap_job *handle,
                      char *text, size_t text_size, size_t *text_len, struct trap_error *error);

/* trap_share: opens the job of `handle` in `other` too, for another thread. The job is copied, and not read again; each of them is
 * closed by itself. Returns LIBTRAP_DONE; or LIBTRAP_CALL for a null pointer, if `handle` is not open or `other` is, or
 * LIBTRAP_MEMORY, and *other is not changed. No other thread may use either during the call. *error is set, unless it is null. */
trap_status trap_share(struct trap_job *handle, struct trap_job *other, struct trap_error *error);

/* Closes a job and frees its memory. Does nothing if it is not open, or if handle is null. */
void trap_close(struct trap_job *handle);

/* Sets *halo as trap_halo does. Returns LIBTRAP_DONE; or LIBTRAP_CALL if the job is not open or a pointer is null, and *halo is not
 * changed. */
trap_status trap_open_halo(struct trap_job *handle, uint32_t *halo);

/* The figures of an open job. Begin with LIBTRAP_NO_INFO, which sets the size. */
struct trap_info {
  uint32_t size;        /* sizeof(struct trap_info), set by the caller */
  uint32_t resolution;  /* in dpi; 0 if the job has none, and then it traps nothing */
  uint32_t halo;        /* the rows and columns that a window needs around its core, as trap_halo gives them */
  uint32_t corner_step; /* a window's left and lower sides lie at multiples of so many samples, counted from the sheet's lower left
                         * corner: 1 if the job has no settrapzone, and at most common resolutions */
  uint32_t reach;       /* how far the job's widest trap extends from an edge, in half-samples, rounded down; 0 if no zone is
                         * enabled */
  uint32_t zones;       /* the zones of a report: what no settrapzone covers, and one for each settrapzone */
  uint64_t inks;        /* the inks that the job names */
};

#define LIBTRAP_NO_INFO {sizeof(struct trap_info), 0, 0, 0, 0, 0, 0}

/* trap_job_info: sets *info to the figures of an open job, and *error, unless it is null. Returns LIBTRAP_DONE; or LIBTRAP_CALL for
 * a null pointer, for an info->size that is not sizeof(struct trap_info), or if the job is not open, and *info is not changed. */
trap_status trap_job_info(struct trap_job *handle, struct trap_info *info, struct trap_error *error);

/* The counts of a report, beside the text. Begin with LIBTRAP_NO_REPORT, which sets the size. Pass null if you do not want them. */
struct trap_report {
  uint32_t size;               /* sizeof(struct trap_report), set by the caller */
  uint32_t zones;              /* the zones of the job: what no settrapzone covers, and one for each settrapzone */
  uint32_t planes;             /* the planes */
  uint64_t edges;              /* the edges that call for a trap */
  uint64_t zone_samples[251];  /* for each zone its samples, 0 from `zones` on */
  uint64_t zone_changed[251];  /* and how many of them have a new tint on some plane */
  uint64_t plane_changed[16];  /* for each plane the samples with a new tint, 0 from `planes` on */
};

#define LIBTRAP_NO_REPORT {sizeof(struct trap_report), 0, 0, 0, {0}, {0}, {0}}

/* trap_open_window8, trap_open_window16: do what trap_window8 and trap_window16 do with the bytes that the job was opened from.
 * Earlier calls make no difference to the result. If the job is not open, the answer is "call: Handle", whatever else is wrong but the
 * size of a struct: that is "call: Size", and the struct is not changed. Unless they are null, *report is set to the counts of the core
 * if the call is done, and *error to what the line says. */
trap_status trap_open_window8(struct trap_job *handle, const char *names, size_t names_size,
                              uint8_t *samples, size_t sample_count,
                              uint32_t width, uint32_t height, uint32_t step, uint32_t maxval,
                              const struct trap_place *place,
                              char *text, size_t text_size, size_t *text_len,
                             struct trap_report *report, struct trap_error *error);

trap_status trap_open_window16(struct trap_job *handle, const char *names, size_t names_size,
                               uint16_t *samples, size_t sample_count,
                               uint32_t width, uint32_t height, uint32_t step, uint32_t maxval,
                               const struct trap_place *place,
                               char *text, size_t text_size, size_t *text_len,
                              struct trap_report *report, struct trap_error *error);

/* The version of the library, as LIBTRAP_VERSION has that of the header. */
uint32_t trap_version(void);

/* What a status means, in a few words; the text of a call says more. */
static inline const char *trap_strerror(trap_status status) {
  switch (status) {
    case LIBTRAP_DONE: return "done";
    case LIBTRAP_CALL: return "an argument is wrong";
    case LIBTRAP_JOB: return "the job has a fault";
    case LIBTRAP_PAGE: return "the planes or the zones are not valid";
    case LIBTRAP_MEMORY: return "out of memory";
    default: return "unknown status";
  }
}

/* The word of a kind in its line, such as "OutOfRange". */
static inline const char *trap_kind_name(uint32_t kind) {
  switch (kind) {
    /* Made of the names of library/kinds.txt by tools/pages. */
    case LIBTRAP_KIND_NONE: return "none";
    case LIBTRAP_KIND_NULL: return "Null";
    case LIBTRAP_KIND_SIZE: return "Size";
    case LIBTRAP_KIND_HANDLE: return "Handle";
    case LIBTRAP_KIND_NAMES: return "Names";
    case LIBTRAP_KIND_SIDES: return "Sides";
    case LIBTRAP_KIND_STEP: return "Step";
    case LIBTRAP_KIND_MAXVAL: return "Maxval";
    case LIBTRAP_KIND_SAMPLES: return "Samples";
    case LIBTRAP_KIND_PLACE: return "Place";
    case LIBTRAP_KIND_JOB_TOO_LONG: return "JobTooLong";
    case LIBTRAP_KIND_BAD_TOKEN: return "BadToken";
    case LIBTRAP_KIND_NUMBER_TOO_LARGE: return "NumberTooLarge";
    case LIBTRAP_KIND_UNCLOSED: return "Unclosed";
    case LIBTRAP_KIND_UNMATCHED: return "Unmatched";
    case LIBTRAP_KIND_ODD_DICTIONARY: return "OddDictionary";
    case LIBTRAP_KIND_KEY_NOT_NAME: return "KeyNotName";
    case LIBTRAP_KIND_NAME_INSIDE: return "NameInside";
    case LIBTRAP_KIND_TOO_DEEP: return "TooDeep";
    case LIBTRAP_KIND_WRONG_KIND: return "WrongKind";
    case LIBTRAP_KIND_OUT_OF_RANGE: return "OutOfRange";
    case LIBTRAP_KIND_NOT_DICTIONARY: return "NotDictionary";
    case LIBTRAP_KIND_MISSING_KEY: return "MissingKey";
    case LIBTRAP_KIND_WRONG_TYPE: return "WrongType";
    case LIBTRAP_KIND_BAD_DENSITY: return "BadDensity";
    case LIBTRAP_KIND_BAD_KIND: return "BadKind";
    case LIBTRAP_KIND_BAD_RESOLUTION: return "BadResolution";
    case LIBTRAP_KIND_UNKNOWN_OPERATOR: return "UnknownOperator";
    case LIBTRAP_KIND_WRONG_OPERANDS: return "WrongOperands";
    case LIBTRAP_KIND_NO_CURRENT_POINT: return "NoCurrentPoint";
    case LIBTRAP_KIND_COORDINATE_RANGE: return "CoordinateRange";
    case LIBTRAP_KIND_TOO_MANY_VERTICES: return "TooManyVertices";
    case LIBTRAP_KIND_TOO_MANY_ZONES: return "TooManyZones";
    case LIBTRAP_KIND_NO_PAGE_DEVICE: return "NoPageDevice";
    case LIBTRAP_KIND_AFTER_SHOWPAGE: return "AfterShowpage";
    case LIBTRAP_KIND_NO_SHOWPAGE: return "NoShowpage";
    case LIBTRAP_KIND_NO_DETAILS: return "NoDetails";
    case LIBTRAP_KIND_SAMPLE_ABOVE_MAXVAL: return "SampleAboveMaxval";
    case LIBTRAP_KIND_TOO_MANY_SAMPLES: return "TooManySamples";
    case LIBTRAP_KIND_REACH_TOO_WIDE: return "ReachTooWide";
    case LIBTRAP_KIND_FAR: return "Far";
    case LIBTRAP_KIND_OUT_OF_MEMORY: return "OutOfMemory";
    /* End of what is made. */
    default: return "unknown kind";
  }
}

/* Whether this processor has the instructions that the library uses. On one that has not, each other call ends the program with
 * SIGILL. */
static inline int trap_cpu_supported(void) {
#if defined(__GNUC__) && defined(__x86_64__)
  return __builtin_cpu_supports("sse4.2") != 0;
#else
  return 0;
#endif
}

#ifdef __cplusplus
}
#endif

#endif
