// Writes down the calls by which a program keeps a file. LD_PRELOAD loads this library. It appends a line to the file ORDERED for each write to a file, each
// fsync and each rename, after the call has returned. The line has the name of the call, and that of the file.
#define _GNU_SOURCE
#include <dlfcn.h>
#include <fcntl.h>
#include <limits.h>
#include <stdio.h>
#include <stdlib.h>
#include <string.h>
#include <sys/stat.h>
#include <unistd.h>

typedef ssize_t writing(int, const void *, size_t);
typedef int syncing(int);
typedef int renaming(const char *, const char *);

static void note(const char *call, const char *name) {
  char line[PATH_MAX + 32];
  int size = snprintf(line, sizeof line, "%s %s\n", call, name);
  int log = open(getenv("ORDERED"), O_WRONLY | O_CREAT | O_APPEND, 0600);
  ((writing *)dlsym(RTLD_NEXT, "write"))(log, line, size);
  close(log);
}

static void note_file(const char *call, int file) {
  char link[64], name[PATH_MAX];
  snprintf(link, sizeof link, "/proc/self/fd/%d", file);
  ssize_t size = readlink(link, name, sizeof name - 1);
  name[size < 0 ? 0 : size] = 0;
  if (name[0] == '/') note(call, name);
}

ssize_t write(int file, const void *bytes, size_t size) {
  ssize_t done = ((writing *)dlsym(RTLD_NEXT, "write"))(file, bytes, size);
  struct stat is;
  if (fstat(file, &is) == 0 && S_ISREG(is.st_mode)) note_file("write", file);
  return done;
}

int fsync(int file) {
  int done = ((syncing *)dlsym(RTLD_NEXT, "fsync"))(file);
  note_file("sync", file);
  return done;
}

int rename(const char *from, const char *to) {
  int done = ((renaming *)dlsym(RTLD_NEXT, "rename"))(from, to);
  note("rename", to);
  return done;
}
