// Loaded before the C library: of the calls below the one whose number FAIL_AT names fails with the error FAIL_WITH and does nothing;
// with FAIL_ON all behind it on the same descriptor fail too, as those of a device that went away do. FAILED names a file that is
// made then.
#define _GNU_SOURCE
#include <dlfcn.h>
#include <errno.h>
#include <fcntl.h>
#include <stdarg.h>
#include <stdlib.h>
#include <sys/stat.h>
#include <sys/types.h>
#include <unistd.h>

static long calls, at;
static int error, stays, lost = -1;
static int (*next_open)(const char *, int, ...);

static long number(const char *name) {
  const char *text = getenv(name);
  return text ? atol(text) : 0;
}

__attribute__((constructor)) static void begin(void) {
  next_open = dlsym(RTLD_NEXT, "open");
  at = number("FAIL_AT");
  error = number("FAIL_WITH");
  stays = number("FAIL_ON");
}

static int fails(int file) {
  int is_lost = stays && file >= 0 && file == lost;
  if (++calls == at) {
    lost = file;
    close(next_open(getenv("FAILED"), O_WRONLY | O_CREAT, 0666));
    is_lost = 1;
  }
  if (is_lost) errno = error;
  return is_lost;
}

#define CALL(answer, name, file, taken, given)                                \
  answer name taken {                                                         \
    static answer (*next) taken;                                              \
    if (!next) next = dlsym(RTLD_NEXT, #name);                                \
    return fails(file) ? -1 : next given;                                     \
  }

CALL(ssize_t, read, file, (int file, void *into, size_t count), (file, into, count))
CALL(ssize_t, write, file, (int file, const void *from, size_t count), (file, from, count))
CALL(ssize_t, pread, file, (int file, void *into, size_t count, off_t from), (file, into, count, from))
CALL(ssize_t, pwrite, file, (int file, const void *from, size_t count, off_t to), (file, from, count, to))
CALL(int, fsync, file, (int file), (file))
CALL(int, fdatasync, file, (int file), (file))
CALL(int, ftruncate, file, (int file, off_t length), (file, length))
CALL(int, flock, file, (int file, int how), (file, how))
CALL(int, getentropy, -1, (void *into, size_t count), (into, count))

int statx(int folder, const char *restrict path, int flags, unsigned mask, struct statx *restrict into) {
  static int (*next)(int, const char *, int, unsigned, struct statx *);
  if (!next) next = dlsym(RTLD_NEXT, "statx");
  return fails(-1) ? -1 : next(folder, path, flags, mask, into);
}

int open(const char *path, int flags, ...) {
  va_list more;
  va_start(more, flags);
  mode_t mode = va_arg(more, mode_t);
  va_end(more);
  return fails(-1) ? -1 : next_open(path, flags, mode);
}
