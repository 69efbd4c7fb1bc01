/* Loaded before other libraries, this stops a program at its calls and asks what to do there.

   TRAP=ASK,ANSWER in the environment names two open descriptors. Before a call that changes or syncs something, and
   behind it, a line goes to the first: `before` or `after`, the call, its paths, its result and its fault, parted by
   tabs. The answer is one byte from the second:

     g  go on
     e  the call isn't made, and fails with EIO
     k  the process is killed here

   With TRAP_ALL=1 the calls that only read are told of too. */
#define _GNU_SOURCE
#include <errno.h>
#include <fcntl.h>
#include <signal.h>
#include <stdarg.h>
#include <stdio.h>
#include <stdlib.h>
#include <sys/stat.h>
#include <sys/syscall.h>
#include <sys/types.h>
#include <unistd.h>

enum { PATH_LIMIT = 1024 };

/* A call: its number, what it gets, and what it is told as. */
struct call {
  const char *name, *path, *other;
  long number, words[5];
};

/* Tells of a call and gives the answer. */
static char ask(const char *when, const struct call *call, long result, int fault) {
  static int asking = -1, answering = -1;
  char line[3 * PATH_LIMIT], answer = 'g';
  const char *given = getenv("TRAP");
  if (asking < 0 && (!given || sscanf(given, "%d,%d", &asking, &answering) != 2)) return answer;
  const char *other = call->other ? call->other : "";
  int length = snprintf(line, sizeof line, "%s\t%s\t%.900s\t%.900s\t%ld\t%d\n", when, call->name, call->path, other,
                        result, fault);
  if (syscall(SYS_write, asking, line, length) != length || syscall(SYS_read, answering, &answer, 1) != 1) _exit(125);
  if (answer == 'k') syscall(SYS_kill, getpid(), SIGKILL);
  return answer;
}

static long make(const struct call *call) {
  const long *words = call->words;
  return syscall(call->number, words[0], words[1], words[2], words[3], words[4]);
}

/* Makes a call that changes or syncs something, as it is answered. */
static long watch(struct call call) {
  int before = errno;
  if (ask("before", &call, 0, 0) == 'e') {
    errno = EIO;
    return -1;
  }
  errno = before;
  long result = make(&call);
  int fault = errno;
  ask("after", &call, result, result < 0 ? fault : 0);
  errno = fault;
  return result;
}

/* Makes a call that only reads. */
static long look(struct call call) {
  static int is_told = -1;
  long result = make(&call);
  int fault = errno;
  if (is_told < 0) is_told = getenv("TRAP_ALL") != NULL;
  if (is_told) ask("after", &call, result, result < 0 ? fault : 0);
  errno = fault;
  return result;
}

/* The path of an open file. */
static const char *path_of(int descriptor) {
  static char path[PATH_LIMIT];
  char link[64];
  int fault = errno;
  snprintf(link, sizeof link, "/proc/self/fd/%d", descriptor);
  long length = syscall(SYS_readlink, link, path, sizeof path - 1);
  path[length < 0 ? 0 : length] = '\0';
  errno = fault;
  return path;
}

static int open_at(int folder, const char *path, int flags, mode_t mode) {
  struct call call = {"open", path, NULL, SYS_openat, {folder, (long)path, flags, mode, 0}};
  if (!(flags & (O_CREAT | O_TRUNC))) return look(call);
  call.name = flags & O_CREAT ? "create" : "cut";
  return watch(call);
}

/* The mode of a call that may make a file. */
#define MODE_OF(flags, mode)       \
  do {                             \
    if (!((flags) & O_CREAT)) break; \
    va_list rest;                  \
    va_start(rest, flags);         \
    mode = va_arg(rest, mode_t);   \
    va_end(rest);                  \
  } while (0)

int open(const char *path, int flags, ...) {
  mode_t mode = 0;
  MODE_OF(flags, mode);
  return open_at(AT_FDCWD, path, flags, mode);
}

int openat(int folder, const char *path, int flags, ...) {
  mode_t mode = 0;
  MODE_OF(flags, mode);
  return open_at(folder, path, flags, mode);
}

/* What changes or syncs something. */

int rename(const char *from, const char *to) {
  return watch((struct call){"rename", from, to, SYS_rename, {(long)from, (long)to}});
}

int unlink(const char *path) {
  return watch((struct call){"unlink", path, NULL, SYS_unlink, {(long)path}});
}

int mkdir(const char *path, mode_t mode) {
  return watch((struct call){"mkdir", path, NULL, SYS_mkdir, {(long)path, mode}});
}

ssize_t write(int descriptor, const void *bytes, size_t count) {
  return watch((struct call){"write", path_of(descriptor), NULL, SYS_write, {descriptor, (long)bytes, count}});
}

int fchmod(int descriptor, mode_t mode) {
  return watch((struct call){"fchmod", path_of(descriptor), NULL, SYS_fchmod, {descriptor, mode}});
}

int ftruncate(int descriptor, off_t length) {
  return watch((struct call){"ftruncate", path_of(descriptor), NULL, SYS_ftruncate, {descriptor, length}});
}

int fsync(int descriptor) {
  return watch((struct call){"fsync", path_of(descriptor), NULL, SYS_fsync, {descriptor}});
}

int fdatasync(int descriptor) {
  return watch((struct call){"fdatasync", path_of(descriptor), NULL, SYS_fdatasync, {descriptor}});
}

int syncfs(int descriptor) {
  return watch((struct call){"syncfs", path_of(descriptor), NULL, SYS_syncfs, {descriptor}});
}

/* What only reads. */

int close(int descriptor) {
  return look((struct call){"close", path_of(descriptor), NULL, SYS_close, {descriptor}});
}

int flock(int descriptor, int operation) {
  return look((struct call){"flock", path_of(descriptor), NULL, SYS_flock, {descriptor, operation}});
}

off_t lseek(int descriptor, off_t offset, int whence) {
  return look((struct call){"lseek", path_of(descriptor), NULL, SYS_lseek, {descriptor, offset, whence}});
}

ssize_t read(int descriptor, void *bytes, size_t count) {
  return look((struct call){"read", path_of(descriptor), NULL, SYS_read, {descriptor, (long)bytes, count}});
}

ssize_t pread(int descriptor, void *bytes, size_t count, off_t offset) {
  return look((struct call){"pread", path_of(descriptor), NULL, SYS_pread64, {descriptor, (long)bytes, count, offset}});
}

ssize_t getdents64(int descriptor, void *bytes, size_t count) {
  return look((struct call){"getdents64", path_of(descriptor), NULL, SYS_getdents64, {descriptor, (long)bytes, count}});
}

int statx(int folder, const char *restrict path, int flags, unsigned mask, struct statx *restrict found) {
  return look((struct call){"statx", path, NULL, SYS_statx, {folder, (long)path, flags, mask, (long)found}});
}
