// Preloaded into a program. It refuses one memory growth: the one whose number, counted from 1, is
// in GROWTH. It then makes the file that REFUSED names. If CALL is set, only the growths between
// the first two writes to standard output are counted. At the end of the program, the file that
// COUNTED names gets the number of growths.
#include "growths.h"
#include <fcntl.h>
#include <stdio.h>
#include <unistd.h>

static long growths, writes;

ssize_t write(int to, const void *bytes, size_t count) {
  writes += to == 1;
  return NEXT(write)(to, bytes, count);
}

static int is_refused(size_t size) {
  const char *wanted = getenv("GROWTH"), *told = getenv("REFUSED");
  (void)size;
  if (getenv("CALL") && writes != 1) return 0;
  if (++growths != (wanted ? atol(wanted) : 0)) return 0;
  if (told) close(open(told, O_CREAT | O_WRONLY, 0600));
  errno = ENOMEM;
  return 1;
}

static void *grown(size_t before, void *block) {
  (void)before;
  return block;
}

__attribute__((destructor)) static void leave_count(void) {
  const char *counted = getenv("COUNTED");
  if (counted) dprintf(open(counted, O_CREAT | O_TRUNC | O_WRONLY, 0600), "%ld\n", growths);
}
