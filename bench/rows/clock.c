/* Loaded before a program, has its clock count the processor time of the process: so other work on the machine counts little. */
#define _GNU_SOURCE
#include <sys/syscall.h>
#include <time.h>
#include <unistd.h>

int clock_gettime(clockid_t id, struct timespec *t) {
  if (id == CLOCK_MONOTONIC || id == CLOCK_BOOTTIME) id = CLOCK_PROCESS_CPUTIME_ID;
  return (int)syscall(SYS_clock_gettime, id, t);
}
