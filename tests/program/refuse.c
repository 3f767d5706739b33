/* Refuses an allocation of a program that this library is loaded before (LD_PRELOAD, with the GNU C library): the one whose
   number, from 1, stands in the environment variable REFUSE, and those behind it up to as many as REFUSE_MANY says, one by
   default. Where it was reached, the file that REFUSE_TOLD names is made. */
#include <errno.h>
#include <fcntl.h>
#include <stdatomic.h>
#include <stddef.h>
#include <stdlib.h>
#include <unistd.h>

void *__libc_malloc(size_t);
void *__libc_calloc(size_t, size_t);
void *__libc_realloc(void *, size_t);
void *__libc_memalign(size_t, size_t);

static long wanted, many = 1;
static atomic_long made;

__attribute__((constructor)) static void begin(void) {
  const char *number = getenv("REFUSE");
  const char *more = getenv("REFUSE_MANY");
  wanted = number ? atol(number) : 0;
  if (more) many = atol(more);
}

/* Whether this allocation is one of them. Those before the program begins are not counted. */
static int refused(void) {
  if (wanted == 0) return 0;
  long number = atomic_fetch_add(&made, 1) + 1;
  if (number < wanted || number >= wanted + many) return 0;
  const char *told = getenv("REFUSE_TOLD");
  if (told) close(open(told, O_CREAT | O_WRONLY, 0600));
  errno = ENOMEM;
  return 1;
}

void *malloc(size_t size) { return refused() ? NULL : __libc_malloc(size); }

void *calloc(size_t count, size_t size) { return refused() ? NULL : __libc_calloc(count, size); }

void *realloc(void *old, size_t size) { return refused() ? NULL : __libc_realloc(old, size); }

void *memalign(size_t alignment, size_t size) { return refused() ? NULL : __libc_memalign(alignment, size); }

void *aligned_alloc(size_t alignment, size_t size) { return memalign(alignment, size); }

int posix_memalign(void **to, size_t alignment, size_t size) {
  *to = memalign(alignment, size);
  return *to ? 0 : ENOMEM;
}
