// Scales the time that a program lets a write to a socket wait. LD_PRELOAD loads this library, and each limit of time that the program sets for writes is
// divided by SCALE. A write of jupd asks again each second, 600 times: where SCALE is 100, six seconds are its ten minutes.
#define _GNU_SOURCE
#include <dlfcn.h>
#include <stdlib.h>
#include <sys/socket.h>
#include <sys/time.h>

typedef int setting(int, int, int, const void *, socklen_t);

int setsockopt(int socket, int level, int name, const void *value, socklen_t size) {
  setting *plain = (setting *)dlsym(RTLD_NEXT, "setsockopt");
  const char *scale = getenv("SCALE");
  if (level != SOL_SOCKET || name != SO_SNDTIMEO || size != sizeof(struct timeval) || !scale) return plain(socket, level, name, value, size);
  const struct timeval *limit = value;
  long micros = (limit->tv_sec * 1000000 + limit->tv_usec) / strtol(scale, NULL, 10);
  struct timeval scaled = {micros / 1000000, micros % 1000000};
  return plain(socket, level, name, &scaled, sizeof scaled);
}
