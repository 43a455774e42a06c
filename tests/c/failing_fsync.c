// Loaded before the C library, this lets the first FSYNC_FAILS_AFTER calls of fsync pass, and fails each later one.
#define _GNU_SOURCE
#include <dlfcn.h>
#include <errno.h>
#include <stdlib.h>

static unsigned long calls;

int fsync(int file) {
  static int (*real)(int);
  const char *most = getenv("FSYNC_FAILS_AFTER");
  if (!real) real = dlsym(RTLD_NEXT, "fsync");
  if (most && __atomic_add_fetch(&calls, 1, __ATOMIC_RELAXED) > strtoul(most, 0, 10)) {
    errno = EIO;
    return -1;
  }
  return real(file);
}
