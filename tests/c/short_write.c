// Loaded before the C library, this writes at most SHORT_WRITE bytes at a time.
#define _GNU_SOURCE
#include <dlfcn.h>
#include <stdlib.h>
#include <unistd.h>

ssize_t write(int file, const void *data, size_t size) {
  static ssize_t (*real)(int, const void *, size_t);
  const char *most = getenv("SHORT_WRITE");
  if (!real) real = dlsym(RTLD_NEXT, "write");
  if (most && size > strtoul(most, 0, 10)) size = strtoul(most, 0, 10);
  return real(file, data, size);
}
