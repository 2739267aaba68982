// This library is preloaded into a program that callgrind runs. It counts memory growths, reads and
// writes. The run is divided into portions: one ends at each read of standard input, and the last
// ends with the run. At the end, the file that COUNTED names gets a line for each portion:
//   the number of growths, and the most bytes in use at a time, without the bytes that were in use
//   when the portion began;
//   the greatest single request for memory, minus the bytes that were read before the request;
//   the number of reads and of bytes read, and the number of writes and of bytes written.
// callgrind counts the instructions of each portion.
#include "../programs/growth/growths.h"
#include <fcntl.h>
#include <limits.h>
#include <stdio.h>
#include <unistd.h>
#include <valgrind/callgrind.h>

enum { MOST = 64 };

struct portion {
  long growths, peak, at_once, reads, bytes_read, writes, bytes_written;
};

static struct portion ended[MOST], portion;
static long held, held_at_first;
static int count;

static void end_portion(void) {
  CALLGRIND_DUMP_STATS;
  if (count == MOST) abort();
  ended[count++] = portion;
  portion = (struct portion){0};
  held_at_first = held;
}

static int is_refused(size_t size) {
  long beyond = (size < LONG_MAX ? (long)size : LONG_MAX) - portion.bytes_read;
  portion.growths++;
  if (beyond > portion.at_once) portion.at_once = beyond;
  return 0;
}

static void *grown(size_t before, void *block) {
  if (!block) return NULL;
  held += (long)malloc_usable_size(block) - (long)before;
  if (held - held_at_first > portion.peak) portion.peak = held - held_at_first;
  return block;
}

void free(void *block) {
  held -= (long)malloc_usable_size(block);
  NEXT(free)(block);
}

ssize_t read(int from, void *into, size_t size) {
  if (from == STDIN_FILENO) end_portion();
  ssize_t got = NEXT(read)(from, into, size);
  portion.reads++;
  if (got > 0) portion.bytes_read += got;
  return got;
}

ssize_t write(int to, const void *bytes, size_t size) {
  ssize_t took = NEXT(write)(to, bytes, size);
  portion.writes++;
  if (took > 0) portion.bytes_written += took;
  return took;
}

// `__write` is another name for `write`.
ssize_t __write(int to, const void *bytes, size_t size) { return write(to, bytes, size); }

// Looks up the wrapped calls before the program starts, so that the lookups aren't counted.
__attribute__((constructor)) static void begin(void) {
  free(realloc(malloc(1), 2));
  if (read(-1, NULL, 0) == 0 || write(-1, NULL, 0) == 0) abort();
  portion = (struct portion){0};
  held_at_first = held;
}

__attribute__((destructor)) static void leave_counts(void) {
  end_portion();
  const char *counted = getenv("COUNTED");
  int out = counted ? open(counted, O_CREAT | O_TRUNC | O_WRONLY, 0600) : -1;
  for (int i = 0; i < count; i++) {
    struct portion *p = &ended[i];
    dprintf(out, "%ld %ld %ld ", p->growths, p->peak, p->at_once);
    dprintf(out, "%ld %ld %ld %ld\n", p->reads, p->bytes_read, p->writes, p->bytes_written);
  }
}
