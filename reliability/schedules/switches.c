// Switches within the program's own code, at its atomic instructions and some instructions after them.
//
// A run has break points at some of the atomic instructions. There a thread may hand over, immediately or some instructions later. It then runs a copy of the
// instruction, from which a jump leads back. Within the C library no thread is switched, since the library may hold a lock of its own: a step into it is the last.
#include "schedules.h"
#include <errno.h>
#include <signal.h>
#include <stdio.h>
#include <stdlib.h>
#include <string.h>
#include <sys/mman.h>
#include <ucontext.h>

enum { BREAK_POINT = 0xcc, COPY = 32, MOST_STEPS = 16, TRAP_FLAG = 0x100 };

uint64_t switch_count;

static struct {
  uintptr_t at;
  int length;
} *atomics;
static size_t atomic_count;
static unsigned char *copies;
static uintptr_t code_from, code_to, code_base;
static unsigned odds;
static bool is_prepared;
static __thread int steps_left __attribute__((tls_model("initial-exec")));

// Copies an instruction, with a jump after it to the next one.
static void copy(size_t nth) {
  unsigned char *to = copies + nth * COPY;
  uintptr_t next = atomics[nth].at + atomics[nth].length;
  static const unsigned char jump[] = {0xff, 0x25, 0, 0, 0, 0};
  memcpy(to, (void *)atomics[nth].at, atomics[nth].length);
  memcpy(to + atomics[nth].length, jump, sizeof jump);
  memcpy(to + atomics[nth].length + sizeof jump, &next, sizeof next);
}

// Reads where the atomic instructions are: a line for each, with its offset in the program and its length, in ascending order.
static void read_atomics(FILE *file) {
  size_t room = 0;
  unsigned long at;
  int length;
  while (fscanf(file, "%lx %d", &at, &length) == 2) {
    if (atomic_count == room) atomics = realloc(atomics, (room = 2 * room + 64) * sizeof *atomics);
    atomics[atomic_count].at = code_base + at;
    atomics[atomic_count++].length = length;
  }
}

static void on_trap(int signal, siginfo_t *info, void *context);

void prepare_switches(const char *path) {
  FILE *file = fopen(path, "r");
  if (!file) return;
  find_code(&code_from, &code_to);
  unsigned long first;
  if (fscanf(file, "%lx", &first) == 1) {
    code_base = code_from - first;
    read_atomics(file);
  }
  fclose(file);
  copies = mmap(NULL, atomic_count * COPY + 1, PROT_READ | PROT_WRITE | PROT_EXEC, MAP_PRIVATE | MAP_ANONYMOUS, -1, 0);
  uintptr_t page = code_from & ~4095ul;
  is_prepared = mprotect((void *)page, code_to - page, PROT_READ | PROT_WRITE | PROT_EXEC) == 0;
  for (size_t k = 0; k < atomic_count; k++) copy(k);
  struct sigaction action = {.sa_sigaction = on_trap, .sa_flags = SA_SIGINFO | SA_NODEFER};
  sigaction(SIGTRAP, &action, NULL);
}

// Draws which of the instructions have break points in this run, and how often a thread hands over at one.
void begin_switches(uint64_t seed) {
  static const unsigned each[] = {2, 8, 32, 128}, shares[] = {1, 4, 16};
  odds = each[draw(&of_schedule, 4)];
  unsigned share = shares[draw(&of_schedule, 3)];
  for (size_t k = 0; k < atomic_count && is_prepared && seed % 2 == 0; k++)
    if (draw(&of_schedule, share) == 0) *(unsigned char *)atomics[k].at = BREAK_POINT;
}

static size_t atomic_at(uintptr_t at) {
  size_t low = 0, high = atomic_count;
  while (low < high) {
    size_t middle = (low + high) / 2;
    if (atomics[middle].at < at) low = middle + 1;
    else high = middle;
  }
  return low < atomic_count && atomics[low].at == at ? low : atomic_count;
}

// How many instructions after the one at a break point the thread hands over, from 1, or 0 if it does not.
static int steps_from_here(void) {
  int drawn = draw(&of_schedule, odds) ? 0 : 1 + (int)(draw(&of_schedule, 2) ? 0 : draw(&of_schedule, MOST_STEPS));
  return decide(me, drawn, 0);
}

static bool is_in_copy(uintptr_t at) {
  return at >= (uintptr_t)copies && at < (uintptr_t)copies + atomic_count * COPY;
}

static bool is_within_code(uintptr_t at) {
  return (at >= code_from && at < code_to) || is_in_copy(at);
}

// Where the program has an instruction. Of one in a copy, and of the jump after it, that is where the copied one is.
static unsigned long place_of(uintptr_t at) {
  return (is_in_copy(at) ? atomics[(at - (uintptr_t)copies) / COPY].at : at) - code_base;
}

static void on_break_point(greg_t *registers, size_t nth) {
  registers[REG_RIP] = (greg_t)(copies + nth * COPY);
  if (!is_running || !me) return;
  int steps = steps_left ? steps_left : steps_from_here();
  if (steps == 1) {
    steps = 0;
    registers[REG_EFL] &= ~(greg_t)TRAP_FLAG;
    steps_left = 0;
    switch_within("is switched before +%lx", place_of(atomics[nth].at));
  }
  steps_left = steps;
  if (steps) registers[REG_EFL] |= TRAP_FLAG;
}

static void on_step(greg_t *registers) {
  uintptr_t at = registers[REG_RIP];
  bool is_over = !steps_left || !is_running || !is_within_code(at);
  if (!is_over && --steps_left > 1) return;
  registers[REG_EFL] &= ~(greg_t)TRAP_FLAG;
  steps_left = 0;
  if (!is_over) switch_within("is switched at +%lx", place_of(at));
}

static void on_trap(int signal, siginfo_t *info, void *context) {
  (void)signal, (void)info;
  greg_t *registers = ((ucontext_t *)context)->uc_mcontext.gregs;
  int error = errno;
  size_t nth = atomic_at(registers[REG_RIP] - 1);
  // A step may end right behind a break point. What caused the trap tells the two apart.
  if (nth < atomic_count && info->si_code == SI_KERNEL) on_break_point(registers, nth);
  else on_step(registers);
  errno = error;
}
