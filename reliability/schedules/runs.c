// One run for each seed, each in a process of its own.
//
// The library is loaded before the program, and begins before its `main`. There it forks a process for each seed, which goes on into the program. The first
// process never does: it counts how the others end, and exits. The environment says what is run:
//
// - SCHEDULES: the file of the scenario
// - SCHEDULES_FIRST, SCHEDULES_COUNT: the seeds
// - SCHEDULES_TWICE: each seed runs twice, and both have to do the same
// - SCHEDULES_ATOMICS: a file with the program's atomic instructions, so that runs of even seeds switch threads within its code
// - SCHEDULES_INPUT: the file that is the program's standard input
// - SCHEDULES_BOARD: the file whose copy `a.board` in the folder of the run is
// - SCHEDULES_ROOM: where the runs have their folders
// - SCHEDULES_ENDS: the exit statuses that the program may have, as digits
// - SCHEDULES_TRACE, SCHEDULES_MADE, SCHEDULES_TOLD: files for the trace of a run and for its decisions, and one with the decisions of a schedule
#include "schedules.h"
#include <dirent.h>
#include <fcntl.h>
#include <signal.h>
#include <stdio.h>
#include <stdlib.h>
#include <string.h>
#include <sys/mman.h>
#include <sys/resource.h>
#include <sys/syscall.h>
#include <sys/wait.h>
#include <unistd.h>

// How many seconds of a processor a run may take, so that a program that loops without a call is found. And how many seconds it may take at all.
enum { MOST_WORK = 20, LONGEST_RUN = 600 };

// What a run leaves.
typedef struct {
  uint64_t hash, steps, switches;
  int64_t time;
} Outcome;

static Outcome *outcome;
static const char *seed_text;

static const char *told(const char *name, const char *other) {
  const char *found = getenv(name);
  return found ? found : other;
}

// ---- the end of a run ----

void end_run(int verdict, const char *report) {
  is_running = false;
  *outcome = (Outcome){trace_hash, step_count, switch_count, now};
  if (verdict && report) {
    char head[64];
    system_call(SYS_write, STDERR_FILENO, (long)head, snprintf(head, sizeof head, "seed %s: ", seed_text), 0, 0, 0);
    system_call(SYS_write, STDERR_FILENO, (long)report, strlen(report), 0, 0, 0);
  }
  if (getenv("SCHEDULES_MADE")) write_decisions(getenv("SCHEDULES_MADE"));
  fflush(NULL);
  system_call(SYS_exit_group, verdict, 0, 0, 0, 0, 0);
  __builtin_unreachable();
}

static void at_exit(int status, void *unused) {
  (void)unused;
  if (is_running) finish(status);
}

// ---- the start of a run ----

static void make_room(void) {
  char folder[512];
  snprintf(folder, sizeof folder, "%s/%ld", told("SCHEDULES_ROOM", "/tmp"), system_call(SYS_getpid, 0, 0, 0, 0, 0, 0));
  if (system_call(SYS_mkdir, (long)folder, 0700, 0, 0, 0, 0) || chdir(folder)) end_run(UNUSABLE, "the run has no folder\n");
  int from = (int)system_call(SYS_open, (long)getenv("SCHEDULES_BOARD"), O_RDONLY, 0, 0, 0, 0), to = (int)system_call(SYS_open, (long)"a.board", O_WRONLY | O_CREAT, 0600, 0, 0, 0);
  char piece[4096];
  for (ssize_t size; (size = system_call(SYS_read, from, (long)piece, sizeof piece, 0, 0, 0)) > 0;) system_call(SYS_write, to, (long)piece, size, 0, 0, 0);
  system_call(SYS_close, from, 0, 0, 0, 0, 0);
  system_call(SYS_close, to, 0, 0, 0, 0, 0);
}

static void open_input(void) {
  int file = (int)system_call(SYS_open, (long)told("SCHEDULES_INPUT", "/dev/null"), O_RDONLY, 0, 0, 0, 0);
  system_call(SYS_dup2, file, STDIN_FILENO, 0, 0, 0, 0);
  system_call(SYS_close, file, 0, 0, 0, 0, 0);
}

static void begin_run(uint64_t seed, char *text) {
  snprintf(text, 24, "%llu", (unsigned long long)seed);
  seed_text = text;
  setrlimit(RLIMIT_CPU, &(struct rlimit){MOST_WORK, MOST_WORK + 1});
  alarm(LONGEST_RUN);
  seed_streams(seed);
  if (getenv("SCHEDULES_TOLD")) read_decisions(getenv("SCHEDULES_TOLD"));
  if (getenv("SCHEDULES_TRACE")) trace_to(getenv("SCHEDULES_TRACE"));
  if (getenv("SCHEDULES_BOARD")) make_room();
  open_input();
  begin_tasks();
  begin_links();
  begin_switches(seed);
  spurious_odds = draw(&of_schedule, 4) ? 0 : 4;
  read_scenario(getenv("SCHEDULES"));
  on_exit(at_exit, NULL);
  is_running = true;
}

// ---- all runs ----

static void remove_room(pid_t run) {
  char folder[512], file[1024];
  snprintf(folder, sizeof folder, "%s/%d", told("SCHEDULES_ROOM", "/tmp"), run);
  DIR *entries = opendir(folder);
  for (struct dirent *it; entries && (it = readdir(entries));) {
    snprintf(file, sizeof file, "%s/%s", folder, it->d_name);
    unlink(file);
  }
  if (entries) closedir(entries);
  rmdir(folder);
}

// The verdict of a run, or -1 in the process that goes on into the program.
static int run(uint64_t seed) {
  static char text[24];
  memset(outcome, 0, sizeof *outcome);
  pid_t child = fork();
  if (child == 0) {
    begin_run(seed, text);
    return -1;
  }
  int status;
  waitpid(child, &status, 0);
  if (getenv("SCHEDULES_BOARD")) remove_room(child);
  return WIFSIGNALED(status) ? 128 + WTERMSIG(status) : WEXITSTATUS(status);
}

static int compare_hashes(const void *left, const void *right) {
  uint64_t one = *(const uint64_t *)left, other = *(const uint64_t *)right;
  return (one > other) - (one < other);
}

static uint64_t count_different(uint64_t *hashes, uint64_t count) {
  uint64_t different = 0;
  qsort(hashes, count, sizeof *hashes, compare_hashes);
  for (uint64_t k = 0; k < count; k++) different += k == 0 || hashes[k] != hashes[k - 1];
  return different;
}

// How long a processor has worked for the runs, in milliseconds.
static long work_of_runs(void) {
  struct rusage used;
  getrusage(RUSAGE_CHILDREN, &used);
  return (used.ru_utime.tv_sec + used.ru_stime.tv_sec) * 1000 + (used.ru_utime.tv_usec + used.ru_stime.tv_usec) / 1000;
}

// Prints a line for each run that was not well, and one about all. True in a process that goes on into the program.
static bool run_all(uint64_t first, uint64_t count, bool is_twice) {
  uint64_t *hashes = calloc(count, sizeof *hashes), steps = 0, switches = 0, bad = 0;
  for (uint64_t k = 0; k < count; k++) {
    int verdict = run(first + k);
    if (verdict < 0) return true;
    Outcome once = *outcome;
    hashes[k] = once.hash;
    steps += once.steps;
    switches += once.switches;
    bool differs = false;
    if (is_twice) {
      int again = run(first + k);
      if (again < 0) return true;
      differs = again != verdict || memcmp(&once, outcome, sizeof once);
    }
    bad += verdict != 0 || differs;
    if (verdict || differs) printf("seed %lu verdict %d%s\n", first + k, verdict, differs ? " differs" : "");
    fflush(stdout);
  }
  printf("runs %lu bad %lu schedules %lu steps %lu switches %lu work %ld\n", count, bad, count_different(hashes, count), steps, switches, work_of_runs());
  return false;
}

__attribute__((constructor)) static void begin(void) {
  if (!getenv("SCHEDULES")) return;
  find_real_calls();
  begin_memory();
  if (getenv("SCHEDULES_ATOMICS")) prepare_switches(getenv("SCHEDULES_ATOMICS"));
  outcome = mmap(NULL, sizeof *outcome, PROT_READ | PROT_WRITE, MAP_SHARED | MAP_ANONYMOUS, -1, 0);
  if (run_all(strtoull(told("SCHEDULES_FIRST", "1"), NULL, 10), strtoull(told("SCHEDULES_COUNT", "1"), NULL, 10), getenv("SCHEDULES_TWICE"))) return;
  fflush(NULL);
  system_call(SYS_exit_group, 0, 0, 0, 0, 0, 0);
}
