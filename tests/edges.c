// Loaded before the C library: writes into the file that CALLS names which files are opened and synced, and how many random
// bytes are asked for. Its own descriptor is a high one, so that those which are free stay free.
#define _GNU_SOURCE
#include <dlfcn.h>
#include <fcntl.h>
#include <stdarg.h>
#include <stdio.h>
#include <stdlib.h>
#include <sys/stat.h>
#include <sys/types.h>
#include <unistd.h>

static int calls = -1;
static int (*next_open)(const char *, int, ...);
static int (*next_fsync)(int);
static int (*next_getentropy)(void *, size_t);

__attribute__((constructor)) static void begin(void) {
  next_open = dlsym(RTLD_NEXT, "open");
  next_fsync = dlsym(RTLD_NEXT, "fsync");
  next_getentropy = dlsym(RTLD_NEXT, "getentropy");
  int low = next_open(getenv("CALLS"), O_WRONLY | O_CREAT | O_APPEND, 0666);
  calls = fcntl(low, F_DUPFD, 200);
  close(low);
}

int open(const char *path, int flags, ...) {
  va_list more;
  va_start(more, flags);
  mode_t mode = va_arg(more, mode_t);
  va_end(more);
  dprintf(calls, "open %s\n", path);
  return next_open(path, flags, mode);
}

int fsync(int file) {
  struct stat it;
  fstat(file, &it);
  dprintf(calls, "sync %ld\n", (long)it.st_ino);
  return next_fsync(file);
}

int getentropy(void *into, size_t count) {
  dprintf(calls, "random %zu\n", count);
  return next_getentropy(into, count);
}
