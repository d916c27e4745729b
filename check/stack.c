/* SPDX-License-Identifier: Apache-2.0 */
/* Preloaded into a program: at its end it appends a line to the file that STACK_TO names, "main N worker M", the most bytes of stack
 * that its first thread had in use and the most that any other had. Each stack is filled with one byte beforehand, and what is no
 * longer that byte was used. */
#define _GNU_SOURCE
#include <dlfcn.h>
#include <pthread.h>
#include <stdio.h>
#include <stdlib.h>
#include <string.h>
#include <sys/mman.h>
#include <sys/syscall.h>
#include <unistd.h>

enum { FILLED = 0xa5, ROOM = 4 << 20 };

struct start {
  void *(*call)(void *);
  void *given;
  unsigned char *low;
};

static unsigned char *first_low, *first_top;
static size_t most;
static pthread_mutex_t lock = PTHREAD_MUTEX_INITIALIZER;

static size_t used(const unsigned char *low, const unsigned char *top) {
  while (low < top && *low == FILLED) low++;
  return (size_t)(top - low);
}

static void *begin(void *given) {
  struct start start = *(struct start *)given;
  const unsigned char *top = __builtin_frame_address(0);
  void *result = start.call(start.given);
  size_t here = used(start.low, top);
  pthread_mutex_lock(&lock);
  if (here > most) most = here;
  pthread_mutex_unlock(&lock);
  return result;
}

int pthread_create(pthread_t *thread, const pthread_attr_t *ignored, void *(*call)(void *), void *given) {
  int (*create)(pthread_t *, const pthread_attr_t *, void *(*)(void *), void *) = dlsym(RTLD_NEXT, "pthread_create");
  unsigned char *low = mmap(NULL, ROOM, PROT_READ | PROT_WRITE, MAP_PRIVATE | MAP_ANONYMOUS, -1, 0);
  struct start *start = malloc(sizeof *start);
  pthread_attr_t own;
  (void)ignored;
  memset(low, FILLED, ROOM);
  *start = (struct start){call, given, low};
  pthread_attr_init(&own);
  pthread_attr_setstack(&own, low, ROOM);
  return create(thread, &own, begin, start);
}

static void tell(void) {
  FILE *file = fopen(getenv("STACK_TO"), "a");
  fprintf(file, "main %zu worker %zu\n", used(first_low, first_top), most);
  fclose(file);
}

__attribute__((noinline)) static void fill(void) {
  unsigned char area[ROOM / 2];
  memset(area, FILLED, sizeof area);
  __asm__ volatile("" : : "r"(area) : "memory");
  first_low = (unsigned char *)__builtin_frame_address(0) - sizeof area;
}

__attribute__((constructor)) static void start(void) {
  first_top = __builtin_frame_address(0);
  fill();
}

__attribute__((destructor)) static void end(void) { tell(); }

void _exit(int status) {
  tell();
  syscall(SYS_exit_group, status);
  __builtin_unreachable();
}
