/* SPDX-License-Identifier: Apache-2.0 */
/* Preloaded into a program: counts what is asked of the allocator, and refuses one request, that of the number in REFUSE, counted
   from 1. Where REFUSED names a file, it is made at the refusal, so that who runs the program knows whether it came. */
#define _GNU_SOURCE
#include <dlfcn.h>
#include <errno.h>
#include <fcntl.h>
#include <stddef.h>
#include <stdlib.h>
#include <unistd.h>

static unsigned long asked;

/* Whether this request is the one to refuse. */
static int is_refused(void) {
  const char *number = getenv("REFUSE");
  if (!number || __atomic_add_fetch(&asked, 1, __ATOMIC_SEQ_CST) != strtoul(number, NULL, 10))
    return 0;
  const char *name = getenv("REFUSED");
  if (name) {
    int file = open(name, O_CREAT | O_WRONLY, 0600);
    if (file >= 0)
      close(file);
  }
  errno = ENOMEM;
  return 1;
}

/* The allocator's own call of a name. */
static void *below(const char *name) { return dlsym(RTLD_NEXT, name); }

void *malloc(size_t size) {
  static void *(*real)(size_t);
  if (!real)
    real = (void *(*)(size_t))below("malloc");
  return is_refused() ? NULL : real(size);
}

void *realloc(void *old, size_t size) {
  static void *(*real)(void *, size_t);
  if (!real)
    real = (void *(*)(void *, size_t))below("realloc");
  return is_refused() ? NULL : real(old, size);
}

void *aligned_alloc(size_t align, size_t size) {
  static void *(*real)(size_t, size_t);
  if (!real)
    real = (void *(*)(size_t, size_t))below("aligned_alloc");
  return is_refused() ? NULL : real(align, size);
}

int posix_memalign(void **to, size_t align, size_t size) {
  static int (*real)(void **, size_t, size_t);
  if (!real)
    real = (int (*)(void **, size_t, size_t))below("posix_memalign");
  return is_refused() ? ENOMEM : real(to, align, size);
}
