/* Has two threads of a program meet that this library is loaded before (LD_PRELOAD, with the GNU C library): a thread that frees a
   block which begins with the text in the environment variable MEET looks there for another one that does, for half a minute at
   most. The program's first thread is left out, and each other one looks once. The file that MEET_TOLD names gets a line of each
   that saw another. */
#include <fcntl.h>
#include <malloc.h>
#include <sched.h>
#include <stdatomic.h>
#include <stddef.h>
#include <stdlib.h>
#include <string.h>
#include <sys/syscall.h>
#include <time.h>
#include <unistd.h>

enum { SECONDS = 30 };

void __libc_free(void *);

static const char *text;
static size_t length;
static atomic_int here;
static _Thread_local int been;

__attribute__((constructor)) static void begin(void) {
  text = getenv("MEET");
  length = text ? strlen(text) : 0;
}

/* Whether the thread that frees this block is to look for another. */
static int looks(void *block) {
  if (block == NULL || length == 0 || been || malloc_usable_size(block) < length || memcmp(block, text, length) != 0) return 0;
  return syscall(SYS_gettid) != getpid();
}

/* Raises a flag, and looks for a second one. */
static void look(void) {
  time_t last = time(NULL) + SECONDS;
  been = 1;
  atomic_fetch_add(&here, 1);
  while (atomic_load(&here) < 2)
    if (sched_yield() != 0 || time(NULL) > last) return;
  int told = open(getenv("MEET_TOLD"), O_CREAT | O_WRONLY | O_APPEND, 0600);
  if (write(told, "met\n", 4) != 4) abort();
  close(told);
}

void free(void *block) {
  if (looks(block)) look();
  __libc_free(block);
}
