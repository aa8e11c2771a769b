// Loaded before the C library: reads and writes move a few bytes at most, and some of the state file's calls are interrupted
// first, by the numbers that SEED begins; the sync whose number FAIL_SYNC names fails.
#define _GNU_SOURCE
#include <dlfcn.h>
#include <errno.h>
#include <stdlib.h>
#include <sys/types.h>

static unsigned state;
static long syncs, failing;
static ssize_t (*next_read)(int, void *, size_t);
static ssize_t (*next_write)(int, const void *, size_t);
static ssize_t (*next_pread)(int, void *, size_t, off_t);
static ssize_t (*next_pwrite)(int, const void *, size_t, off_t);
static int (*next_fsync)(int);

__attribute__((constructor)) static void begin(void) {
  next_read = dlsym(RTLD_NEXT, "read");
  next_write = dlsym(RTLD_NEXT, "write");
  next_pread = dlsym(RTLD_NEXT, "pread");
  next_pwrite = dlsym(RTLD_NEXT, "pwrite");
  next_fsync = dlsym(RTLD_NEXT, "fsync");
  state = getenv("SEED") ? atoi(getenv("SEED")) : 0;
  failing = getenv("FAIL_SYNC") ? atol(getenv("FAIL_SYNC")) : 0;
}

static unsigned number(void) { return (state = state * 1103515245u + 12345u) >> 16; }

static int is_interrupted(void) {
  if (number() % 3) return 0;
  errno = EINTR;
  return 1;
}

static size_t some(size_t count) {
  size_t most = 1 + number() % 97;
  return count < most ? count : most;
}

ssize_t read(int file, void *into, size_t count) { return next_read(file, into, some(count)); }
ssize_t write(int file, const void *from, size_t count) { return next_write(file, from, some(count)); }
ssize_t pread(int file, void *into, size_t count, off_t at) { return is_interrupted() ? -1 : next_pread(file, into, some(count), at); }
ssize_t pwrite(int file, const void *from, size_t count, off_t at) { return is_interrupted() ? -1 : next_pwrite(file, from, some(count), at); }

int fsync(int file) {
  if (is_interrupted()) return -1;
  if (++syncs != failing) return next_fsync(file);
  errno = EIO;
  return -1;
}
