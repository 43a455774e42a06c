// Loaded before the C library, this refuses memory, fails reads of standard input and fails writes to standard output, at the
// calls that the environment names. Each name may be missing.
//
// REFUSE_FIRST, REFUSE_LAST   the first and the last allocation that is refused, counted from 1
// COUNT_ALLOCATIONS           prints how many allocations there were, at the end of standard error
// READ_FAILS_AFTER            each read after this many bytes fails
// READ_AT_MOST                the most bytes that one read gives
// WRITE_FAILS_AFTER           each write after this many bytes fails
// WRITE_STOPS_AFTER           each write after this many bytes takes nothing
// WRITE_AT_MOST               the most bytes that one write takes
#define _GNU_SOURCE
#include <dlfcn.h>
#include <errno.h>
#include <stdio.h>
#include <stdlib.h>
#include <sys/syscall.h>
#include <sys/types.h>
#include <unistd.h>

static const unsigned long none = ~0UL;
static unsigned long allocations, first, last;
static unsigned long given, read_fails_after, read_at_most;
static unsigned long taken, write_fails_after, write_stops_after, write_at_most;
static int ready;

static unsigned long named(const char *name, unsigned long missing) {
  const char *text = getenv(name);
  return text ? strtoul(text, 0, 10) : missing;
}

__attribute__((constructor)) static void begin(void) {
  first = named("REFUSE_FIRST", 0);
  last = named("REFUSE_LAST", 0);
  read_fails_after = named("READ_FAILS_AFTER", none);
  read_at_most = named("READ_AT_MOST", none);
  write_fails_after = named("WRITE_FAILS_AFTER", none);
  write_stops_after = named("WRITE_STOPS_AFTER", none);
  write_at_most = named("WRITE_AT_MOST", none);
  ready = 1;
}

__attribute__((destructor)) static void end(void) {
  if (!ready) return;
  ready = 0;
  if (getenv("COUNT_ALLOCATIONS")) dprintf(2, "%lu\n", allocations);
}

// A program that ends in this way runs no destructors.
__attribute__((noreturn)) void _exit(int status) {
  end();
  syscall(SYS_exit_group, status);
  __builtin_unreachable();
}

// Threads may allocate at the same time.
static int refused(void) {
  unsigned long number;
  if (!ready) return 0;
  number = __atomic_add_fetch(&allocations, 1, __ATOMIC_RELAXED);
  if (number < first || number > last) return 0;
  errno = ENOMEM;
  return 1;
}

void *malloc(size_t size) {
  static void *(*real)(size_t);
  if (!real) real = dlsym(RTLD_NEXT, "malloc");
  return refused() ? 0 : real(size);
}

void *realloc(void *old, size_t size) {
  static void *(*real)(void *, size_t);
  if (!real) real = dlsym(RTLD_NEXT, "realloc");
  return refused() ? 0 : real(old, size);
}

void *aligned_alloc(size_t alignment, size_t size) {
  static void *(*real)(size_t, size_t);
  if (!real) real = dlsym(RTLD_NEXT, "aligned_alloc");
  return refused() ? 0 : real(alignment, size);
}

int posix_memalign(void **result, size_t alignment, size_t size) {
  static int (*real)(void **, size_t, size_t);
  if (!real) real = dlsym(RTLD_NEXT, "posix_memalign");
  return refused() ? ENOMEM : real(result, alignment, size);
}

static size_t least(size_t a, size_t b) { return a < b ? a : b; }

ssize_t read(int file, void *buffer, size_t size) {
  static ssize_t (*real)(int, void *, size_t);
  ssize_t came;
  if (!real) real = dlsym(RTLD_NEXT, "read");
  if (!ready || file != 0) return real(file, buffer, size);
  if (given >= read_fails_after) {
    errno = EIO;
    return -1;
  }
  came = real(file, buffer, least(size, least(read_at_most, read_fails_after - given)));
  if (came > 0) given += came;
  return came;
}

ssize_t write(int file, const void *bytes, size_t size) {
  static ssize_t (*real)(int, const void *, size_t);
  ssize_t took;
  size_t buffer;
  if (!real) real = dlsym(RTLD_NEXT, "write");
  if (!ready || file != 1) return real(file, bytes, size);
  if (taken >= write_fails_after) {
    errno = EIO;
    return -1;
  }
  if (taken >= write_stops_after) return 0;
  buffer = least(write_fails_after - taken, write_stops_after - taken);
  took = real(file, bytes, least(size, least(write_at_most, buffer)));
  if (took > 0) taken += took;
  return took;
}

// The C library's other name of the same call.
ssize_t __write(int file, const void *bytes, size_t size) { return write(file, bytes, size); }
