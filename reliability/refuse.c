// Makes one allocation of a program fail. LD_PRELOAD loads this library, and the nth allocation of the program then fails. n is REFUSE_NTH.
//
// The calls of the program's own code count, and those that the C library makes for itself do not. If REFUSE_MARKED is set, only those between two
// marks count. A mark is a call for a number of bytes that nothing else asks for. The crate `test_marks` makes the marks.
// When the allocation fails, the library makes the file REFUSE_TOLD, so the caller knows that there was an nth allocation.
#define _GNU_SOURCE
#include <dlfcn.h>
#include <errno.h>
#include <fcntl.h>
#include <link.h>
#include <stdatomic.h>
#include <stdlib.h>
#include <unistd.h>

#define BEGIN 7340033
#define END 7340035

// glibc's own allocation functions, under the names by which their replacements can call them.
extern void *__libc_malloc(size_t size);
extern void *__libc_realloc(void *old, size_t size);
extern void *__libc_calloc(size_t count, size_t size);
extern void *__libc_memalign(size_t alignment, size_t size);

static uintptr_t code_from, code_to;
static atomic_long count;
static long nth;
static atomic_int is_counting;

// The first object is the program itself.
static int find_code(struct dl_phdr_info *info, size_t size, void *unused) {
  (void)size;
  (void)unused;
  for (int k = 0; k < info->dlpi_phnum; k++) {
    const ElfW(Phdr) *part = &info->dlpi_phdr[k];
    if (part->p_type == PT_LOAD && part->p_flags & PF_X) {
      code_from = info->dlpi_addr + part->p_vaddr;
      code_to = code_from + part->p_memsz;
    }
  }
  return 1;
}

__attribute__((constructor)) static void begin(void) {
  dl_iterate_phdr(find_code, NULL);
  const char *wanted = getenv("REFUSE_NTH");
  nth = wanted ? strtol(wanted, NULL, 10) : 0;
  is_counting = getenv("REFUSE_MARKED") == NULL;
}

static void tell(void) {
  const char *path = getenv("REFUSE_TOLD");
  if (path) close(open(path, O_WRONLY | O_CREAT, 0600));
}

// Whether this call is the one that fails.
static int refuses(size_t size, void *caller) {
  uintptr_t at = (uintptr_t)caller;
  if (at < code_from || at >= code_to) return 0;
  if (size == BEGIN || size == END) {
    if (getenv("REFUSE_MARKED")) is_counting = size == BEGIN;
    return 0;
  }
  if (!is_counting || atomic_fetch_add(&count, 1) + 1 != nth) return 0;
  tell();
  errno = ENOMEM;
  return 1;
}

void *malloc(size_t size) {
  return refuses(size, __builtin_return_address(0)) ? NULL : __libc_malloc(size);
}

void *realloc(void *old, size_t size) {
  return refuses(size, __builtin_return_address(0)) ? NULL : __libc_realloc(old, size);
}

void *calloc(size_t items, size_t size) {
  return refuses(items * size, __builtin_return_address(0)) ? NULL : __libc_calloc(items, size);
}

void *aligned_alloc(size_t alignment, size_t size) {
  return refuses(size, __builtin_return_address(0)) ? NULL : __libc_memalign(alignment, size);
}

int posix_memalign(void **made, size_t alignment, size_t size) {
  if (refuses(size, __builtin_return_address(0))) return ENOMEM;
  *made = __libc_memalign(alignment, size);
  return *made ? 0 : ENOMEM;
}
