// Threads and clients, of which one acts at a time, and virtual time.
//
// Each thread of the program waits at a semaphore of its own until it is chosen. A call of the program takes a microsecond. If nobody can act, time goes on
// to the next end of a wait.
#include "schedules.h"
#include <errno.h>
#include <stdarg.h>
#include <stdio.h>
#include <stdlib.h>
#include <string.h>
#include <sys/syscall.h>

enum { A_CALL = 1000, MOST_YIELDS = 100000, IDLE_ROUNDS = 3 };

static const char *const states[] = {"ready", "switched within code", "ready after a yield", "in a futex", "sleeping", "receiving", "sending", "accepting", "reading its input", "joining", "ended"};

// How the next task is chosen: each alike, the one of the highest priority, or by weights.
typedef enum { ALIKE, BY_PRIORITY, BY_WEIGHT } Policy;

Task tasks[MOST_TASKS];
int task_count;
int64_t now, most_time = 3600000ll * MILLISECOND;
uint64_t trace_hash = 1469598103934665603ull, step_count;
__thread Task *me __attribute__((tls_model("initial-exec")));
bool is_running;

static Policy policy;
static unsigned stay; // once in how many calls another task may go on
static FILE *trace;
static int leaving;   // a thread that has ended, but may still run code of the C library

Task *new_task(Client *client) {
  if (task_count == MOST_TASKS) return NULL;
  Task *task = &tasks[task_count];
  *task = (Task){.id = task_count++, .until = NEVER, .joins = -1, .client = client, .priority = draw(&of_schedule, 1000), .weight = 1 << (2 * draw(&of_schedule, 4))};
  sem_init(&task->baton, 0, 0);
  return task;
}

void begin_tasks(void) {
  static const unsigned stays[] = {1, 2, 4, 8, 32};
  policy = draw(&of_schedule, 3);
  stay = stays[draw(&of_schedule, 5)];
  me = new_task(NULL);
}

// ---- the trace and the report of a run ----

void trace_to(const char *path) {
  trace = fopen(path, "w");
}

static void mix(const char *text) {
  for (; *text; text++) trace_hash = (trace_hash ^ (unsigned char)*text) * 1099511628211ull;
}

void note(Task *task, const char *form, ...) {
  char head[48], *call = task->calls[task->call_count++ % LAST_CALLS];
  va_list given;
  va_start(given, form);
  vsnprintf(call, LONGEST_CALL, form, given);
  va_end(given);
  snprintf(head, sizeof head, "%lld %c%d ", (long long)(now / 1000), task->client ? 'c' : 't', task->id);
  mix(head);
  mix(call);
  step_count++;
  if (trace) fprintf(trace, "%s%s\n", head, call);
}

static void tell_task(FILE *to, const Task *task) {
  if (task->client) {
    const Client *client = task->client;
    if (has_finished(client)) fprintf(to, "client %d %s: done\n", task->id, client->name);
    else fprintf(to, "client %d %s: at line %d of the scenario\n", task->id, client->name, client->commands[client->at].line);
  } else {
    fprintf(to, "thread %d: %s\n", task->id, states[task->state]);
  }
  unsigned first = task->call_count > LAST_CALLS ? task->call_count - LAST_CALLS : 0;
  for (unsigned k = first; k < task->call_count; k++) fprintf(to, "    %s\n", task->calls[k % LAST_CALLS]);
}

static int verdict_of(const char *what) {
  return strcmp(what, "DEADLOCK") == 0 ? DEADLOCK : strcmp(what, "LIVELOCK") == 0 ? LIVELOCK : strcmp(what, "LATE") == 0 ? LATE : FAILURE;
}

void give_up(const char *what, const char *why) {
  char *report;
  size_t size;
  FILE *to = open_memstream(&report, &size);
  fprintf(to, "%s at %lld us, step %llu: %s\n", what, (long long)(now / 1000), (unsigned long long)step_count, why);
  for (int k = 0; k < task_count; k++)
    if (tasks[k].state != ENDED) tell_task(to, &tasks[k]);
  fclose(to);
  if (trace) fflush(trace);
  end_run(verdict_of(what), report);
}

// ---- who can act ----

static bool can_act(const Task *task) {
  if (task->client) return can_step(task->client);
  if (task->state != ENDED && task->until != NEVER && now >= task->until) return true;
  switch (task->state) {
    case READY:
    case SWITCHED:
    case YIELDED: return true;
    case IN_FUTEX: return task->is_woken;
    case RECEIVING: return can_receive(task->link);
    case SENDING: return can_send(task->link);
    case ACCEPTING: return has_connection();
    case READING: return can_read_typed();
    case JOINING: return tasks[task->joins].state == ENDED;
    case SLEEPING:
    case ENDED: return false;
  }
  return false;
}

static bool is_fresh(const Task *task) {
  return task->client || (task->state != YIELDED && task->state != SWITCHED);
}

// Lists the tasks that can act. Those that have yielded or were switched within code are among them only if there is no other.
static int list_able(Task **able) {
  int count = 0, yielded = 0;
  static Task *second[MOST_TASKS];
  for (int k = 0; k < task_count; k++)
    if (can_act(&tasks[k])) {
      if (is_fresh(&tasks[k])) able[count++] = &tasks[k];
      else second[yielded++] = &tasks[k];
    }
  // Such a one gets its turn now and then, also while others can act.
  if (yielded && (count == 0 || draw(&of_schedule, 8) == 0))
    for (int k = 0; k < yielded; k++) able[count++] = second[k];
  return count;
}

static bool go_on_in_time(void) {
  int64_t next = NEVER;
  for (int k = 0; k < task_count; k++) {
    const Task *task = &tasks[k];
    int64_t until = task->client ? next_event_of(task->client) : task->state == ENDED ? NEVER : task->until;
    if (until > now && (next == NEVER || until < next)) next = until;
  }
  if (next == NEVER) return false;
  now = next;
  if (now > most_time) give_up("LATE", "the program still runs");
  return true;
}

// ---- who acts next ----

static Task *of_highest_priority(Task **able, int count) {
  if (draw(&of_schedule, 32) == 0) able[draw(&of_schedule, count)]->priority = draw(&of_schedule, 1000);
  Task *highest = able[0];
  for (int k = 1; k < count; k++)
    if (able[k]->priority > highest->priority) highest = able[k];
  return highest;
}

static Task *of_weight(Task **able, int count) {
  int sum = 0, at = 0;
  for (int k = 0; k < count; k++) sum += able[k]->weight;
  for (int drawn = draw(&of_schedule, sum); (drawn -= able[at]->weight) >= 0;) at++;
  return able[at];
}

static Task *draw_one(Task **able, int count) {
  // By priorities or weights, threads that wait for one another by yields might starve the one that they wait for.
  if (is_fresh(able[count - 1]) && policy == BY_PRIORITY) return of_highest_priority(able, count);
  if (is_fresh(able[0]) && policy == BY_WEIGHT) return of_weight(able, count);
  return able[draw(&of_schedule, count)];
}

// Who acts if the schedule does not say it: the same task as long as it can, and then the next one by number.
static Task *next_in_turn(const Task *after, Task **able, int count) {
  for (int k = 0; k < count; k++)
    if (able[k] == after && is_fresh(after)) return able[k];
  for (int k = 0; k < count; k++)
    if (able[k]->id > after->id) return able[k];
  return able[0];
}

// An idle time begins when all that can act have yielded, and ends when one of them does something else, or when time goes on. In each of its rounds every
// thread that can act goes from one yield to the next one, also if it is switched within code meanwhile. What it did there, the others see in the next round.
static uint64_t idle_round;
static int idle_rounds;

static void begin_round(int before) {
  idle_round++;
  idle_rounds = before;
}

static bool is_round_over(Task **able, int count) {
  for (int k = 0; k < count; k++)
    if (able[k]->state == SWITCHED || able[k]->done != idle_round) return false;
  return true;
}

// Lists the tasks that can act. If there are none, or if they do nothing but yield, time goes on before that. It waits for each thread that is within code.
static int list_after_waits(Task **able) {
  for (;;) {
    int count = list_able(able);
    if (count && is_fresh(able[0])) begin_round(0);
    else if (is_round_over(able, count)) begin_round(idle_rounds + 1);
    bool is_idle = count == 0 || idle_rounds >= IDLE_ROUNDS;
    if (!is_idle || !go_on_in_time()) return count;
    begin_round(0);
  }
}

// The next task after what one did. If it may stay, it mostly does.
static Task *choose(Task *after, bool may_stay) {
  Task *able[MOST_TASKS];
  int count = list_after_waits(able);
  if (count == 0) give_up("DEADLOCK", "nobody can act, and no wait ends");
  Task *turn = next_in_turn(after, able, count);
  Task *drawn = may_stay && draw(&of_schedule, stay) ? after : draw_one(able, count);
  int told = decide(after, drawn->id, turn->id);
  Task *next = told < task_count && can_act(&tasks[told]) ? &tasks[told] : turn;
  if (next->state != SWITCHED) next->begun = idle_round;
  return next;
}

// ---- handing over ----

// Waits until a thread that has ended has gone. The memory of its stack is then reused alike in each run of a seed.
static void wait_for_leaving(void) {
  while (leaving && system_call(SYS_tgkill, system_call(SYS_getpid, 0, 0, 0, 0, 0, 0), leaving, 0, 0, 0, 0) == 0) system_call(SYS_sched_yield, 0, 0, 0, 0, 0, 0);
  leaving = 0;
}

void wait_for_baton(Task *task) {
  int error = errno;
  while (sem_wait(&task->baton)) {}
  wait_for_leaving();
  errno = error;
}

// The task after this act goes on. Clients act here.
static void go_on_with(Task *next, bool comes_back) {
  while (next->client) {
    step(next->client);
    next = choose(next, true);
  }
  if (next == me && comes_back) return;
  Task *own = me;
  if (!comes_back) leaving = (int)system_call(SYS_gettid, 0, 0, 0, 0, 0, 0);
  sem_post(&next->baton);
  if (comes_back) wait_for_baton(own);
}

void hand_over(bool comes_back) {
  go_on_with(choose(me, false), comes_back);
}

bool block(State state, int64_t until) {
  me->state = state;
  me->until = until;
  me->is_woken = false;
  hand_over(true);
  bool is_over = until != NEVER && now >= until;
  me->state = READY;
  me->until = NEVER;
  return !is_over;
}

static void act(const char *call, State state) {
  now += A_CALL;
  note(me, "%s", call);
  me->state = state;
  go_on_with(choose(me, state == READY), true);
  me->state = READY;
}

void point(const char *form, ...) {
  char call[LONGEST_CALL];
  va_list given;
  va_start(given, form);
  vsnprintf(call, sizeof call, form, given);
  va_end(given);
  me->yields = 0;
  act(call, READY);
}

void yield_point(void) {
  if (++me->yields > MOST_YIELDS) give_up("LIVELOCK", "a thread has yielded 100,000 times in a row");
  if (me->begun == idle_round) me->done = idle_round;
  act("yield", YIELDED);
}

void switch_within(const char *form, unsigned long place) {
  note(me, form, place);
  switch_count++;
  me->state = SWITCHED;
  hand_over(true);
  me->state = READY;
}
