// Allocations of the program's own code fail once in so many times, if the scenario says so and once the program has a link. What the C library allocates for
// itself does not fail.
#include "schedules.h"
#include <errno.h>
#include <link.h>
#include <stdlib.h>

// glibc's own allocation functions, under the names by which their replacements can call them.
extern void *__libc_malloc(size_t size);
extern void *__libc_realloc(void *old, size_t size);

unsigned allocation_odds;

static uintptr_t code_from, code_to;

// The first object is the program itself.
static int find_first(struct dl_phdr_info *info, size_t size, void *unused) {
  (void)size, (void)unused;
  for (int k = 0; k < info->dlpi_phnum; k++) {
    const ElfW(Phdr) *part = &info->dlpi_phdr[k];
    if (part->p_type != PT_LOAD || !(part->p_flags & PF_X)) continue;
    code_from = info->dlpi_addr + part->p_vaddr;
    code_to = code_from + part->p_memsz;
  }
  return 1;
}

void begin_memory(void) {
  dl_iterate_phdr(find_first, NULL);
}

void find_code(uintptr_t *from, uintptr_t *to) {
  *from = code_from;
  *to = code_to;
}

static bool refuses(void *caller) {
  uintptr_t at = (uintptr_t)caller;
  if (!is_running || !allocation_odds || !has_accepted || at < code_from || at >= code_to || draw(&of_faults, allocation_odds)) return false;
  note(me, "an allocation fails");
  errno = ENOMEM;
  return true;
}

void *malloc(size_t size) {
  return refuses(__builtin_return_address(0)) ? NULL : __libc_malloc(size);
}

void *realloc(void *old, size_t size) {
  return refuses(__builtin_return_address(0)) ? NULL : __libc_realloc(old, size);
}
