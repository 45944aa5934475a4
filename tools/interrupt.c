/* Stands in front of the C library's calls that change files, and ends the process at one of them, or has it fail.
 *
 * `cases/run-office` compiles it and puts it in front of Python by LD_PRELOAD. Nothing is counted before the process calls
 * `interrupt_at`:
 *
 *   interrupt_at(number, error)   counts from now on. At the call with this number, counted from 1, the process ends at once if
 *                                 `error` is 0: a write writes half of its bytes before. Below 0 it is a signal, which the
 *                                 process gets before the call. Else the call fails with this error.
 *                                 If the number is 0, nothing happens but counting.
 *   interrupt_count()             how many calls were counted
 *   interrupt_locks(error)        each lock of a file fails with this error from now on, as on a disk that keeps none
 *
 * Standard streams do not count.
 */
#define _GNU_SOURCE
#include <dlfcn.h>
#include <errno.h>
#include <fcntl.h>
#include <signal.h>
#include <stdarg.h>
#include <sys/file.h>
#include <sys/stat.h>
#include <sys/types.h>
#include <unistd.h>

static long counted, wanted;
static int watching, wanted_error, lock_error;

void interrupt_at(long number, int error) {
  counted = 0;
  wanted = number;
  wanted_error = error;
  watching = 1;
}

long interrupt_count(void) { return counted; }

void interrupt_locks(int error) { lock_error = error; }

/* Whether this call has to fail; `errno` is set then. If the process has to end here, it does. */
static int fails(void) {
  if (!watching || ++counted != wanted) return 0;
  if (wanted_error == 0) _exit(137);
  if (wanted_error < 0) return kill(getpid(), -wanted_error), 0;
  errno = wanted_error;
  return 1;
}

#define REAL(name) ((__typeof__(&name))dlsym(RTLD_NEXT, #name))

ssize_t write(int file, const void *bytes, size_t count) {
  if (file > 2 && watching && counted + 1 == wanted && wanted_error == 0 && count > 1) REAL(write)(file, bytes, count / 2);
  return file > 2 && fails() ? -1 : REAL(write)(file, bytes, count);
}

ssize_t pwrite64(int file, const void *bytes, size_t count, off64_t at) {
  if (watching && counted + 1 == wanted && wanted_error == 0 && count > 1) REAL(pwrite64)(file, bytes, count / 2, at);
  return fails() ? -1 : REAL(pwrite64)(file, bytes, count, at);
}

int fdatasync(int file) { return fails() ? -1 : REAL(fdatasync)(file); }
int fsync(int file) { return fails() ? -1 : REAL(fsync)(file); }
int ftruncate64(int file, off64_t length) { return fails() ? -1 : REAL(ftruncate64)(file, length); }
int renameat(int of, const char *from, int in, const char *to) {
  return fails() ? -1 : REAL(renameat)(of, from, in, to);
}
int rename(const char *from, const char *to) { return fails() ? -1 : REAL(rename)(from, to); }
int mkdir(const char *path, mode_t mode) { return fails() ? -1 : REAL(mkdir)(path, mode); }
int mkdirat(int folder, const char *path, mode_t mode) { return fails() ? -1 : REAL(mkdirat)(folder, path, mode); }
int rmdir(const char *path) { return fails() ? -1 : REAL(rmdir)(path); }
int unlink(const char *path) { return fails() ? -1 : REAL(unlink)(path); }
int unlinkat(int folder, const char *path, int flags) { return fails() ? -1 : REAL(unlinkat)(folder, path, flags); }

/* Of all that opens a file, what may make one. */
int open64(const char *path, int flags, ...) {
  mode_t mode = 0;
  if (flags & O_CREAT) {
    va_list rest;
    va_start(rest, flags);
    mode = va_arg(rest, mode_t);
    va_end(rest);
    if (fails()) return -1;
  }
  return REAL(open64)(path, flags, mode);
}

int openat64(int folder, const char *path, int flags, ...) {
  mode_t mode = 0;
  if (flags & O_CREAT) {
    va_list rest;
    va_start(rest, flags);
    mode = va_arg(rest, mode_t);
    va_end(rest);
    if (fails()) return -1;
  }
  return REAL(openat64)(folder, path, flags, mode);
}

/* Locks. */
static int has_no_lock(int command) {
  if (!lock_error || (command != F_SETLK && command != F_SETLKW && command != F_GETLK)) return 0;
  errno = lock_error;
  return 1;
}

int flock(int file, int operation) { return has_no_lock(F_SETLK) ? -1 : REAL(flock)(file, operation); }

int fcntl64(int file, int command, ...) {
  va_list rest;
  va_start(rest, command);
  void *value = va_arg(rest, void *);
  va_end(rest);
  return has_no_lock(command) ? -1 : REAL(fcntl64)(file, command, value);
}

int fcntl(int file, int command, ...) {
  va_list rest;
  va_start(rest, command);
  void *value = va_arg(rest, void *);
  va_end(rest);
  return has_no_lock(command) ? -1 : REAL(fcntl)(file, command, value);
}
