/* Loaded before the C library (LD_PRELOAD): the allocation with the number FAILN fails, and no other. With FAILTELL their
   number is told on standard error at the end. For glibc. */
#include <errno.h>
#include <stdio.h>
#include <stdlib.h>
#include <unistd.h>

void *__libc_malloc(size_t size);
void *__libc_calloc(size_t count, size_t size);
void *__libc_realloc(void *block, size_t size);
void *__libc_memalign(size_t align, size_t size);

static long failing = -2;
static long done = 0;

static int fails(void) {
  if (failing == -2) {
    const char *word = getenv("FAILN");
    failing = word ? atol(word) : -1;
  }
  done += 1;
  if (done != failing) return 0;
  errno = ENOMEM;
  return 1;
}

void *malloc(size_t size) { return fails() ? NULL : __libc_malloc(size); }

void *calloc(size_t count, size_t size) { return fails() ? NULL : __libc_calloc(count, size); }

void *realloc(void *block, size_t size) { return fails() ? NULL : __libc_realloc(block, size); }

void *memalign(size_t align, size_t size) { return fails() ? NULL : __libc_memalign(align, size); }

void *aligned_alloc(size_t align, size_t size) { return memalign(align, size); }

int posix_memalign(void **block, size_t align, size_t size) {
  *block = memalign(align, size);
  return *block ? 0 : ENOMEM;
}

__attribute__((destructor)) static void tell(void) {
  char line[64];
  if (getenv("FAILTELL")) write(2, line, snprintf(line, sizeof line, "\nallocations %ld\n", done));
}
