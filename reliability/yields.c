// Counts how often the threads of a program yield. LD_PRELOAD loads this library, which keeps the count in the first eight bytes of the file YIELDS_TOLD.
// It does not yield, since on a busy machine 100,000 yields take minutes.
#define _GNU_SOURCE
#include <fcntl.h>
#include <stdatomic.h>
#include <stdlib.h>
#include <sys/mman.h>
#include <unistd.h>

static atomic_long unseen, *count = &unseen;

__attribute__((constructor)) static void begin(void) {
  int file = open(getenv("YIELDS_TOLD"), O_RDWR);
  void *told = mmap(NULL, sizeof *count, PROT_READ | PROT_WRITE, MAP_SHARED, file, 0);
  if (told == MAP_FAILED) abort();
  count = told;
  close(file);
}

int sched_yield(void) {
  atomic_fetch_add(count, 1);
  return 0;
}
