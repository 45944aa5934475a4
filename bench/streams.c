// Stands in front of the C library's `read` and `write`: on standard input and standard output it moves one byte in a
// call, and fails at the call that the environment names in FAILING_READ or FAILING_WRITE. bench/fail-streams builds it.
#define _GNU_SOURCE
#include <dlfcn.h>
#include <errno.h>
#include <stdlib.h>
#include <unistd.h>

static int is_wanted(const char *name, long calls) {
  const char *wanted = getenv(name);
  return wanted != NULL && calls == atol(wanted);
}

ssize_t read(int stream, void *bytes, size_t most) {
  static long calls = 0;
  ssize_t (*next)(int, void *, size_t) = dlsym(RTLD_NEXT, "read");
  if (stream != STDIN_FILENO) return next(stream, bytes, most);
  if (!is_wanted("FAILING_READ", ++calls)) return next(stream, bytes, most > 1 ? 1 : most);
  errno = EIO;
  return -1;
}

ssize_t write(int stream, const void *bytes, size_t most) {
  static long calls = 0;
  ssize_t (*next)(int, const void *, size_t) = dlsym(RTLD_NEXT, "write");
  if (stream != STDOUT_FILENO) return next(stream, bytes, most);
  if (!is_wanted("FAILING_WRITE", ++calls)) return next(stream, bytes, most > 1 ? 1 : most);
  errno = EIO;
  return -1;
}
