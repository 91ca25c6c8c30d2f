// The program's calls that start and join threads, wait and wake, yield, sleep and read the clock.
#include "schedules.h"
#include <dlfcn.h>
#include <errno.h>
#include <linux/futex.h>
#include <stdarg.h>
#include <sys/syscall.h>
#include <time.h>

typedef int Creating(pthread_t *, const pthread_attr_t *, void *(*)(void *), void *);
typedef int Joining(pthread_t, void **);

enum { A_SECOND = 1000000000 };

// Seconds after which a wait counts as one without an end.
static const int64_t CENTURIES = 1000000000;
// What the clock shows at the start of a run, in seconds.
static const int64_t START = 1000000;

unsigned thread_odds, clock_odds, spurious_odds;

static Creating *really_create;
static Joining *really_join;

void find_real_calls(void) {
  really_create = (Creating *)dlsym(RTLD_NEXT, "pthread_create");
  really_join = (Joining *)dlsym(RTLD_NEXT, "pthread_join");
}

long system_call(long number, long a, long b, long c, long d, long e, long f) {
  register long fourth __asm__("r10") = d, fifth __asm__("r8") = e, sixth __asm__("r9") = f;
  long result;
  __asm__ volatile("syscall" : "=a"(result) : "a"(number), "D"(a), "S"(b), "d"(c), "r"(fourth), "r"(fifth), "r"(sixth) : "rcx", "r11", "memory");
  if (result >= 0 || result <= -4096) return result;
  errno = (int)-result;
  return -1;
}

// ---- threads ----

static void *run_thread(void *argument) {
  me = argument;
  wait_for_baton(me);
  void *result = me->start(me->argument);
  note(me, "ends");
  me->state = ENDED;
  hand_over(false);
  return result;
}

int pthread_create(pthread_t *made, const pthread_attr_t *attributes, void *(*start)(void *), void *argument) {
  if (!is_running) return really_create(made, attributes, start, argument);
  Task *task = thread_odds && draw(&of_faults, thread_odds) == 0 ? NULL : new_task(NULL);
  if (!task) {
    point("no thread is made");
    return EAGAIN;
  }
  task->start = start;
  task->argument = argument;
  int error = really_create(&task->handle, attributes, run_thread, task);
  if (error) give_up("FAIL", "the system makes no thread");
  *made = task->handle;
  point("makes thread %d", task->id);
  return 0;
}

int pthread_join(pthread_t thread, void **result) {
  if (!is_running) return really_join(thread, result);
  // Of threads that have one handle the last one is meant: the others were joined.
  for (int k = task_count - 1; k >= 0; k--)
    if (tasks[k].start && pthread_equal(tasks[k].handle, thread)) {
      point("joins thread %d", k);
      me->joins = k;
      if (tasks[k].state != ENDED) block(JOINING, NEVER);
      tasks[k].start = NULL;
      break;
    }
  return really_join(thread, result);
}

// ---- waits ----

static int64_t end_of(const struct timespec *wait) {
  return !wait || wait->tv_sec > CENTURIES ? NEVER : now + wait->tv_sec * A_SECOND + wait->tv_nsec;
}

// A short name for a word of a futex: a number, by its first use.
static int number_of(const uint32_t *word) {
  static const uint32_t *known[4096];
  static int count;
  int at = 0;
  while (at < count && known[at] != word) at++;
  if (at == count && count < 4096) known[count++] = word;
  return at;
}

// 0, or the number of an error.
static int wait_at(const uint32_t *word, uint32_t seen, const struct timespec *wait) {
  int64_t until = end_of(wait);
  point("waits at f%d while %u%s", number_of(word), seen, until == NEVER ? "" : ", for a time");
  if (__atomic_load_n(word, __ATOMIC_SEQ_CST) != seen) return EAGAIN;
  if (spurious_odds && draw(&of_faults, spurious_odds) == 0) {
    note(me, "wakes for nothing");
    return 0;
  }
  me->word = word;
  block(IN_FUTEX, until);
  me->word = NULL;
  int error = me->is_woken ? 0 : ETIMEDOUT;
  note(me, "woke at f%d%s", number_of(word), error ? ", out of time" : "");
  return error;
}

static bool waits_at(const Task *task, const uint32_t *word) {
  return !task->client && task->state == IN_FUTEX && task->word == word && !task->is_woken;
}

// How many threads it wakes, the first one by chance.
static long wake_at(const uint32_t *word, long most) {
  long woken = 0;
  int first = draw(&of_faults, task_count);
  for (int k = 0; k < task_count && woken < most; k++) {
    Task *task = &tasks[(first + k) % task_count];
    if (!waits_at(task, word)) continue;
    task->is_woken = true;
    woken++;
  }
  point("wakes %ld at f%d", woken, number_of(word));
  return woken;
}

static long futex(const uint32_t *word, int operation, uint32_t value, const struct timespec *wait) {
  int error = errno, failed;
  long result = 0;
  switch (operation & FUTEX_CMD_MASK) {
    case FUTEX_WAIT:
      failed = wait_at(word, value, wait);
      if (failed) error = failed, result = -1;
      break;
    case FUTEX_WAKE: result = wake_at(word, (int)value); break;
    default: give_up("FAIL", "a call of futex that the library does not know");
  }
  errno = error;
  return result;
}

long syscall(long number, ...) {
  va_list given;
  va_start(given, number);
  long a[6];
  for (int k = 0; k < 6; k++) a[k] = va_arg(given, long);
  va_end(given);
  if (!is_running || number != SYS_futex) return system_call(number, a[0], a[1], a[2], a[3], a[4], a[5]);
  return futex((const uint32_t *)a[0], (int)a[1], (uint32_t)a[2], (const struct timespec *)a[3]);
}

int sched_yield(void) {
  if (!is_running) return (int)system_call(SYS_sched_yield, 0, 0, 0, 0, 0, 0);
  yield_point();
  return 0;
}

// ---- time ----

int nanosleep(const struct timespec *time, struct timespec *left) {
  if (!is_running) return (int)system_call(SYS_nanosleep, (long)time, (long)left, 0, 0, 0, 0);
  point("sleeps %lld ms", (long long)time->tv_sec * 1000 + time->tv_nsec / MILLISECOND);
  block(SLEEPING, end_of(time));
  return 0;
}

int clock_gettime(clockid_t clock, struct timespec *time) {
  if (!is_running) return (int)system_call(SYS_clock_gettime, clock, (long)time, 0, 0, 0, 0);
  point("reads the clock");
  if (clock_odds && draw(&of_faults, clock_odds) == 0) {
    note(me, "the clock fails");
    errno = EINVAL;
    return -1;
  }
  time->tv_sec = START + now / A_SECOND;
  time->tv_nsec = now % A_SECOND;
  return 0;
}
