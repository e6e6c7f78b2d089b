/* Counts the calls that ask for memory, and refuses one of them: the library that refused_growth.py preloads.

   REFUSED_GROWTH is the number of the call that is refused, from 1; none is without it, or at 0.
   GROWTH_COUNT names a file to which the count is written at the end. */
#include <errno.h>
#include <fcntl.h>
#include <stddef.h>
#include <stdio.h>
#include <stdlib.h>
#include <unistd.h>

extern void *__libc_malloc(size_t);
extern void *__libc_calloc(size_t, size_t);
extern void *__libc_realloc(void *, size_t);
extern void *__libc_memalign(size_t, size_t);

static unsigned long calls;
static unsigned long refused;

__attribute__((constructor)) static void begin(void) {
  const char *number = getenv("REFUSED_GROWTH");
  refused = number ? strtoul(number, NULL, 10) : 0;
  calls = 0;
}

__attribute__((destructor)) static void end(void) {
  const char *name = getenv("GROWTH_COUNT");
  int file = name ? open(name, O_WRONLY | O_CREAT | O_TRUNC, 0644) : -1;
  if (file >= 0) {
    dprintf(file, "%lu\n", calls);
    close(file);
  }
}

static int is_refused(void) {
  calls += 1;
  if (calls != refused) return 0;
  errno = ENOMEM;
  return 1;
}

void *malloc(size_t size) { return is_refused() ? NULL : __libc_malloc(size); }

void *calloc(size_t count, size_t size) { return is_refused() ? NULL : __libc_calloc(count, size); }

void *realloc(void *old, size_t size) {
  if (size == 0) return __libc_realloc(old, size);
  return is_refused() ? NULL : __libc_realloc(old, size);
}

void *memalign(size_t alignment, size_t size) { return is_refused() ? NULL : __libc_memalign(alignment, size); }

void *aligned_alloc(size_t alignment, size_t size) { return is_refused() ? NULL : __libc_memalign(alignment, size); }

int posix_memalign(void **out, size_t alignment, size_t size) {
  if (is_refused()) return ENOMEM;
  *out = __libc_memalign(alignment, size);
  return *out ? 0 : ENOMEM;
}
