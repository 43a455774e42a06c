// Loaded before the C library, this fails one in VANISH_ONE_IN of the calls of accept4, recv and send on sockets of the internet, as if the
// machine of the client had vanished.
#define _GNU_SOURCE
#include <dlfcn.h>
#include <errno.h>
#include <stdlib.h>
#include <sys/socket.h>

static unsigned long calls;

static int vanishes(int file) {
  const char *one_in = getenv("VANISH_ONE_IN");
  int kind = 0;
  socklen_t size = sizeof kind;
  if (!one_in || getsockopt(file, SOL_SOCKET, SO_DOMAIN, &kind, &size) || kind != AF_INET) return 0;
  if (__atomic_add_fetch(&calls, 1, __ATOMIC_RELAXED) % strtoul(one_in, 0, 10)) return 0;
  errno = ETIMEDOUT;
  return 1;
}

ssize_t recv(int file, void *data, size_t size, int flags) {
  static ssize_t (*real)(int, void *, size_t, int);
  if (!real) real = dlsym(RTLD_NEXT, "recv");
  return vanishes(file) ? -1 : real(file, data, size, flags);
}

ssize_t send(int file, const void *data, size_t size, int flags) {
  static ssize_t (*real)(int, const void *, size_t, int);
  if (!real) real = dlsym(RTLD_NEXT, "send");
  return vanishes(file) ? -1 : real(file, data, size, flags);
}

int accept4(int file, struct sockaddr *from, socklen_t *size, int flags) {
  static int (*real)(int, struct sockaddr *, socklen_t *, int);
  if (!real) real = dlsym(RTLD_NEXT, "accept4");
  return vanishes(file) ? -1 : real(file, from, size, flags);
}
