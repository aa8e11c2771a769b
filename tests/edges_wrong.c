// Makes a program wrong at one of its edges, which WRONG names, for tests/edges_wrong.py. As a program it runs PROGRAM with the
// library PRELOADED in front of those that are loaded already; as that library it changes what PROGRAM calls.
#define _GNU_SOURCE
#include <dlfcn.h>
#include <fcntl.h>
#include <stdarg.h>
#include <stdio.h>
#include <stdlib.h>
#include <string.h>
#include <sys/file.h>
#include <sys/stat.h>
#include <unistd.h>

static int is(const char *wrong) { return getenv("WRONG") && !strcmp(getenv("WRONG"), wrong); }

#ifdef LIBRARY
#define NEXT(type, name) ((type)dlsym(RTLD_NEXT, name))

int fsync(int file) {
  static int count;
  struct stat it;
  fstat(file, &it);
  count++;
  if (is("folder is not synced") && S_ISDIR(it.st_mode)) return 0;
  if (is("file is not synced at opening") && count == 1) return 0;
  if (is("gate byte is not synced") && count == 5) return 0;
  return NEXT(int (*)(int), "fsync")(file);
}

int getentropy(void *into, size_t count) {
  if (!is("seed is the same always")) return NEXT(int (*)(void *, size_t), "getentropy")(into, count);
  memset(into, 0, count);
  return 0;
}

int open(const char *path, int flags, ...) {
  va_list more;
  va_start(more, flags);
  mode_t mode = va_arg(more, mode_t);
  va_end(more);
  if (!strcmp(path, "/dev/null") && is("null device is written to")) flags |= O_RDWR;
  int file = NEXT(int (*)(const char *, int, ...), "open")(path, flags, mode);
  if (strcmp(path, "/dev/null") || !is("closed descriptors stay free")) return file;
  int high = fcntl(file, F_DUPFD, 100);
  close(file);
  return high;
}

int flock(int file, int how) {
  int ended = NEXT(int (*)(int, int), "flock")(file, how);
  // no second try: what would be asked again fails at once
  if (ended && is("state is asked for once")) _exit(6);
  return ended;
}
#else
int main(int count, char **words) {
  if (is("book of a clean is opened") && count > 2 && !strcmp(words[1], "clean")) open(words[2], O_RDONLY);
  const char *loaded = getenv("LD_PRELOAD");
  char libraries[8192];
  snprintf(libraries, sizeof libraries, "%s%s%s", getenv("PRELOADED"), loaded ? ":" : "", loaded ? loaded : "");
  setenv("LD_PRELOAD", libraries, 1);
  execv(getenv("PROGRAM"), words);
  return 127;
}
#endif
