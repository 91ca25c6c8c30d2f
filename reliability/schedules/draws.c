// Random numbers, and the decisions of a schedule.
//
// A schedule is the list of its decisions. Each has the task that has acted, how many decisions came after acts of this task, and what was decided. So a
// schedule with some decisions left out still says for each of the others when it is due.
#include "schedules.h"
#include <stdio.h>
#include <stdlib.h>
#include <sys/syscall.h>

typedef struct {
  int task, nth, value;
} Decision;

Stream of_schedule, of_faults;

static uint64_t base;
static Stream of_tokens;
static Decision *made, *told;
static size_t made_count, made_room, told_count;
static bool is_told;

void seed_streams(uint64_t seed) {
  base = seed * 0x2545f4914f6cdd1dull + 1;
  of_schedule = stream_of(0);
  of_faults = stream_of(1);
  of_tokens = stream_of(2);
}

Stream stream_of(uint64_t number) {
  Stream stream = {base + number * 0xd6e8feb86659fd93ull};
  draw(&stream, 1);
  return stream;
}

// By splitmix64.
uint64_t draw(Stream *stream, uint64_t below) {
  uint64_t mixed = stream->state += 0x9e3779b97f4a7c15ull;
  mixed = (mixed ^ (mixed >> 30)) * 0xbf58476d1ce4e5b9ull;
  mixed = (mixed ^ (mixed >> 27)) * 0x94d049bb133111ebull;
  return (mixed ^ (mixed >> 31)) % below;
}

// The program's random bytes are those of the seed too.
int getentropy(void *to, size_t size) {
  if (!is_running) return system_call(SYS_getrandom, (long)to, size, 0, 0, 0, 0) == (long)size ? 0 : -1;
  point("draws %zu random bytes", size);
  for (size_t k = 0; k < size; k++) ((unsigned char *)to)[k] = draw(&of_tokens, 256);
  return 0;
}

static int compare(const void *left, const void *right) {
  const Decision *one = left, *other = right;
  return one->task != other->task ? one->task - other->task : one->nth - other->nth;
}

void read_decisions(const char *path) {
  FILE *file = fopen(path, "r");
  Decision it;
  size_t room = 0;
  is_told = true;
  while (file && fscanf(file, "%d %d %d", &it.task, &it.nth, &it.value) == 3) {
    if (told_count == room) told = realloc(told, (room = room * 2 + 64) * sizeof *told);
    told[told_count++] = it;
  }
  if (file) fclose(file);
  qsort(told, told_count, sizeof *told, compare);
}

void write_decisions(const char *path) {
  FILE *file = fopen(path, "w");
  for (size_t k = 0; file && k < made_count; k++) fprintf(file, "%d %d %d\n", made[k].task, made[k].nth, made[k].value);
  if (file) fclose(file);
}

static void keep(Decision it) {
  if (made_count == made_room) made = realloc(made, (made_room = made_room * 2 + 1024) * sizeof *made);
  made[made_count++] = it;
}

int decide(Task *after, int drawn, int fallback) {
  Decision it = {after->id, after->decisions++, drawn};
  if (is_told) {
    const Decision *found = bsearch(&it, told, told_count, sizeof *told, compare);
    it.value = found ? found->value : fallback;
  }
  if (it.value != fallback) keep(it);
  return it.value;
}
