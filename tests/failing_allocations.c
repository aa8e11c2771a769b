// Loaded before the C library: the allocation whose number FAIL_AT names fails, and on file 9 it says how many there were.
#define _GNU_SOURCE
#include <dlfcn.h>
#include <stdio.h>
#include <stdlib.h>
#include <sys/syscall.h>
#include <unistd.h>

static long count, failing;
static void *(*next_malloc)(size_t);
static void *(*next_realloc)(void *, size_t);
static void *(*next_aligned)(size_t, size_t);
static int (*next_memalign)(void **, size_t, size_t);

static int fails(void) {
  if (!next_malloc) {
    next_malloc = dlsym(RTLD_NEXT, "malloc");
    next_realloc = dlsym(RTLD_NEXT, "realloc");
    next_aligned = dlsym(RTLD_NEXT, "aligned_alloc");
    next_memalign = dlsym(RTLD_NEXT, "posix_memalign");
    failing = getenv("FAIL_AT") ? atol(getenv("FAIL_AT")) : 0;
  }
  return ++count == failing;
}

void *malloc(size_t size) { return fails() ? NULL : next_malloc(size); }
void *realloc(void *old, size_t size) { return fails() ? NULL : next_realloc(old, size); }
void *aligned_alloc(size_t align, size_t size) { return fails() ? NULL : next_aligned(align, size); }
int posix_memalign(void **into, size_t align, size_t size) { return fails() ? 12 : next_memalign(into, align, size); }

static void end(int status) {
  syscall(SYS_exit_group, status);
  __builtin_unreachable();
}

__attribute__((destructor)) static void tell(void) {
  char text[32];
  int length = snprintf(text, sizeof text, "%ld", count);
  if (write(9, text, length) != length) end(70);
}

// The program ends by this call, behind which no destructor runs.
void _exit(int status) {
  tell();
  end(status);
}
