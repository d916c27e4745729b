/* SPDX-License-Identifier: Apache-2.0 */
/* Preloaded into a program: numbers, from 1, the calls that it makes on files of relative names, on devices and on standard output,
   and lets some of them fail. FAULTS has words with commas between:

     NUMBER=WHAT         that call
     NUMBER+CALL=WHAT    each call of that name from that number on; `any` is each call of every name

   WHAT is the number of an error, or `short` (a read or a write of one byte), `again` (EINTR where the call's number is odd), `kill`
   (SIGKILL before the call), `killed` (after it), `within` (a write of one byte, and then SIGKILL) or `cut` (the call's file has lost
   its last byte). FAULTS_LOG names a file to which
   a line for each call is added: NUMBER CALL NAME LENGTH. */
#define _GNU_SOURCE
#include <dlfcn.h>
#include <errno.h>
#include <fcntl.h>
#include <signal.h>
#include <stdarg.h>
#include <stdio.h>
#include <stdlib.h>
#include <string.h>
#include <sys/stat.h>
#include <sys/syscall.h>
#include <unistd.h>

enum { MOST_RULES = 16, MOST_FILES = 256, LONGEST = 512 };

struct rule {
  unsigned long from;
  int is_on;
  char call[16], what[16];
};

static struct rule rules[MOST_RULES];
static int rule_count, log_file = -1;
static unsigned long calls;
static char names[MOST_FILES][LONGEST];

/* The C library's own call of a name. */
#define BELOW(result, name, ...) ((result(*)(__VA_ARGS__))dlsym(RTLD_NEXT, name))

static void add_rule(const char *word) {
  struct rule *rule = &rules[rule_count];
  if (rule_count == MOST_RULES)
    abort();
  if (sscanf(word, "%lu+%15[a-z]=%15s", &rule->from, rule->call, rule->what) == 3)
    rule->is_on = 1;
  else if (sscanf(word, "%lu=%15s", &rule->from, rule->what) != 2)
    abort();
  rule_count++;
}

__attribute__((constructor)) static void begin(void) {
  char text[1024], *rest = text, *word;
  snprintf(text, sizeof text, "%s", getenv("FAULTS") ? getenv("FAULTS") : "");
  while ((word = strsep(&rest, ",")))
    if (*word)
      add_rule(word);
  strcpy(names[1], "stdout");
  const char *name = getenv("FAULTS_LOG");
  int file = name ? BELOW(int, "open", const char *, int, ...)(name, O_WRONLY | O_APPEND | O_CREAT | O_CLOEXEC, 0600) : -1;
  if (file >= 0) {
    /* Out of the way of the numbers that the program's own files have. */
    log_file = fcntl(file, F_DUPFD_CLOEXEC, MOST_FILES);
    BELOW(int, "close", int)(file);
  }
}

static int is_own(const char *path) { return path[0] != '/' || !strncmp(path, "/dev/", 5); }

static const char *name_of(int file) { return file >= 0 && file < MOST_FILES && names[file][0] ? names[file] : NULL; }

static int is_for(const struct rule *rule, unsigned long number, const char *call) {
  if (!rule->is_on)
    return rule->from == number;
  return rule->from <= number && (!strcmp(rule->call, "any") || !strcmp(rule->call, call));
}

/* Takes the last byte off a file, by calls that are not watched. */
static void cut(const char *name) {
  struct stat found;
  if (syscall(SYS_newfstatat, AT_FDCWD, name, &found, 0) || syscall(SYS_truncate, name, found.st_size - 1))
    abort();
}

/* What comes of the next call, which is of that name: "" where it goes on as ever. It is logged, and a kill before it takes place. */
static const char *next(const char *call, const char *name, size_t length) {
  unsigned long number = __atomic_add_fetch(&calls, 1, __ATOMIC_SEQ_CST);
  const char *what = "";
  if (log_file >= 0)
    dprintf(log_file, "%lu %s %s %zu\n", number, call, name, length);
  for (int i = 0; i < rule_count; i++)
    if (is_for(&rules[i], number, call))
      what = rules[i].what;
  if (!strcmp(what, "again"))
    what = number % 2 ? "4" : "";
  if (!strcmp(what, "kill"))
    raise(SIGKILL);
  if (!strcmp(what, "cut"))
    cut(name);
  return what;
}

/* Whether the call fails. */
static int fails(const char *what) {
  if (*what < '0' || *what > '9')
    return 0;
  errno = atoi(what);
  return 1;
}

/* Ends a call, and the process where it is to be killed now. */
static long done(const char *what, long answer) {
  if (!strcmp(what, "killed") || !strcmp(what, "within"))
    raise(SIGKILL);
  return answer;
}

static const char *kind_of(int flags) {
  if (flags & O_EXCL)
    return "create";
  if (flags & O_TRUNC)
    return "truncate";
  return (flags & O_ACCMODE) == O_RDONLY ? "open" : "probe";
}

static int open_any(const char *real, const char *path, int flags, int mode) {
  int (*below)(const char *, int, ...) = BELOW(int, real, const char *, int, ...);
  if (!is_own(path))
    return below(path, flags, mode);
  const char *what = next(kind_of(flags), path, 0);
  if (fails(what))
    return -1;
  int file = below(path, flags, mode);
  if (file >= 0 && file < MOST_FILES)
    snprintf(names[file], LONGEST, "%s", path);
  return done(what, file);
}

#define OPEN(real)                          \
  int real(const char *path, int flags, ...) { \
    va_list rest;                           \
    va_start(rest, flags);                  \
    int mode = flags & O_CREAT ? va_arg(rest, int) : 0; \
    va_end(rest);                           \
    return open_any(#real, path, flags, mode); \
  }
OPEN(open)
OPEN(open64)

int close(int file) {
  const char *name = name_of(file);
  if (!name)
    return BELOW(int, "close", int)(file);
  const char *what = next("close", name, 0);
  names[file][0] = 0;
  int answer = BELOW(int, "close", int)(file);
  return fails(what) ? -1 : done(what, answer);
}

ssize_t read(int file, void *to, size_t length) {
  const char *name = name_of(file);
  ssize_t (*below)(int, void *, size_t) = BELOW(ssize_t, "read", int, void *, size_t);
  if (!name)
    return below(file, to, length);
  const char *what = next("read", name, length);
  if (fails(what))
    return -1;
  return done(what, below(file, to, !strcmp(what, "short") && length ? 1 : length));
}

static ssize_t write_any(const char *real, int file, const void *from, size_t length) {
  const char *name = name_of(file);
  ssize_t (*below)(int, const void *, size_t) = BELOW(ssize_t, real, int, const void *, size_t);
  if (!name)
    return below(file, from, length);
  const char *what = next(file == 1 ? "tell" : "write", name, length);
  if (fails(what))
    return -1;
  int is_part = !strcmp(what, "short") || !strcmp(what, "within");
  return done(what, below(file, from, is_part && length ? 1 : length));
}

ssize_t write(int file, const void *from, size_t length) { return write_any("write", file, from, length); }
ssize_t __write(int file, const void *from, size_t length) { return write_any("__write", file, from, length); }

#define ON_FILE(real, call)                              \
  int real(int file) {                                   \
    const char *name = name_of(file);                    \
    if (!name)                                           \
      return BELOW(int, #real, int)(file);               \
    const char *what = next(call, name, 0);              \
    return fails(what) ? -1 : done(what, BELOW(int, #real, int)(file)); \
  }
ON_FILE(fsync, "sync")
ON_FILE(fdatasync, "sync")

int fchmod(int file, mode_t mode) {
  const char *name = name_of(file);
  if (!name)
    return BELOW(int, "fchmod", int, mode_t)(file, mode);
  const char *what = next("mode", name, 0);
  return fails(what) ? -1 : done(what, BELOW(int, "fchmod", int, mode_t)(file, mode));
}

int fstat(int file, struct stat *to) {
  const char *name = name_of(file);
  if (!name)
    return BELOW(int, "fstat", int, struct stat *)(file, to);
  const char *what = next("look", name, 0);
  return fails(what) ? -1 : done(what, BELOW(int, "fstat", int, struct stat *)(file, to));
}

/* The programs begin a file again by it, and ask for no place. */
off_t lseek(int file, off_t to, int from) {
  const char *name = name_of(file);
  if (!name)
    return BELOW(off_t, "lseek", int, off_t, int)(file, to, from);
  const char *what = next("seek", name, 0);
  return fails(what) ? -1 : done(what, BELOW(off_t, "lseek", int, off_t, int)(file, to, from));
}

int lchown(const char *path, uid_t owner, gid_t group) {
  int (*below)(const char *, uid_t, gid_t) = BELOW(int, "lchown", const char *, uid_t, gid_t);
  if (!is_own(path))
    return below(path, owner, group);
  const char *what = next("owner", path, 0);
  return fails(what) ? -1 : done(what, below(path, owner, group));
}

static int look_at(const char *real, int folder, const char *path, void *to, int flags) {
  int (*below)(int, const char *, void *, int) = BELOW(int, real, int, const char *, void *, int);
  const char *name = *path ? (is_own(path) ? path : NULL) : name_of(folder);
  if (!name)
    return below(folder, path, to, flags);
  const char *what = next("look", name, 0);
  return fails(what) ? -1 : done(what, below(folder, path, to, flags));
}

int fstatat(int folder, const char *path, struct stat *to, int flags) { return look_at("fstatat", folder, path, to, flags); }
int fstatat64(int folder, const char *path, struct stat64 *to, int flags) { return look_at("fstatat64", folder, path, to, flags); }

int statx(int folder, const char *path, int flags, unsigned mask, struct statx *to) {
  int (*below)(int, const char *, int, unsigned, struct statx *) = BELOW(int, "statx", int, const char *, int, unsigned, struct statx *);
  const char *name = *path ? (is_own(path) ? path : NULL) : name_of(folder);
  if (!name)
    return below(folder, path, flags, mask, to);
  const char *what = next("look", name, 0);
  return fails(what) ? -1 : done(what, below(folder, path, flags, mask, to));
}

ssize_t readlink(const char *path, char *to, size_t length) {
  ssize_t (*below)(const char *, char *, size_t) = BELOW(ssize_t, "readlink", const char *, char *, size_t);
  if (!is_own(path))
    return below(path, to, length);
  const char *what = next("link", path, length);
  return fails(what) ? -1 : done(what, below(path, to, length));
}

int rename(const char *from, const char *to) {
  int (*below)(const char *, const char *) = BELOW(int, "rename", const char *, const char *);
  if (!is_own(to))
    return below(from, to);
  const char *what = next("rename", to, 0);
  return fails(what) ? -1 : done(what, below(from, to));
}

int unlink(const char *path) {
  int (*below)(const char *) = BELOW(int, "unlink", const char *);
  if (!is_own(path))
    return below(path);
  const char *what = next("unlink", path, 0);
  return fails(what) ? -1 : done(what, below(path));
}
