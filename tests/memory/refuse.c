/* Refuses allocations of a program that it is loaded before: the call of number REFUSED_CALL, or that and all later ones where
   REFUSED_ON is set. Where the program ends it tells on standard error how many calls there were, and how many of the refused ones
   would have given back the spare room of a block. */

#include <malloc.h>
#include <stdio.h>
#include <stdlib.h>
#include <sys/syscall.h>
#include <unistd.h>

extern void *__libc_malloc(size_t size);
extern void *__libc_calloc(size_t count, size_t size);
extern void *__libc_realloc(void *old, size_t size);

static long calls, shrinks, first = -1, is_on;

static int is_refused(void) {
  if (first < 0) {
    const char *word = getenv("REFUSED_CALL");
    is_on = getenv("REFUSED_ON") != NULL;
    first = word ? atol(word) : 0;
  }
  long call = __atomic_add_fetch(&calls, 1, __ATOMIC_RELAXED);
  return first > 0 && (call == first || (is_on && call > first));
}

void *malloc(size_t size) { return is_refused() ? NULL : __libc_malloc(size); }

void *calloc(size_t count, size_t size) { return is_refused() ? NULL : __libc_calloc(count, size); }

void *realloc(void *old, size_t size) {
  if (!is_refused())
    return __libc_realloc(old, size);
  if (old && size <= malloc_usable_size(old))
    __atomic_add_fetch(&shrinks, 1, __ATOMIC_RELAXED);
  return NULL;
}

static int tell(void) {
  char line[64];
  int length = snprintf(line, sizeof line, "calls %ld shrinks %ld\n", calls, shrinks);
  return length > 0 && write(2, line, (size_t)length) == length;
}

/* The two ways in which a program ends. */
__attribute__((destructor)) static void end(void) { tell(); }

void _exit(int status) {
  syscall(SYS_exit_group, tell() ? status : 3);
  __builtin_unreachable();
}
