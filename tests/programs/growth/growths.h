// Wraps the calls by which a program's memory grows. A library that includes this file decides
// before each growth whether it is refused, and gets the result of each growth.
#define _GNU_SOURCE
#include <dlfcn.h>
#include <errno.h>
#include <malloc.h>
#include <stdlib.h>

// The original of a wrapped call.
#define NEXT(name)                                      \
  ({                                                    \
    static __typeof__(&name) next;                      \
    if (!next) next = dlsym(RTLD_NEXT, #name);          \
    next;                                               \
  })

// Whether a growth to this many bytes is refused.
static int is_refused(size_t size);
// Called with the result of a growth: a block that had `before` bytes, or NULL if there is no
// memory. Returns the block.
static void *grown(size_t before, void *block);

void *malloc(size_t size) { return is_refused(size) ? NULL : grown(0, NEXT(malloc)(size)); }

// A size for which the block already has room is no growth, so it isn't refused.
void *realloc(void *old, size_t size) {
  size_t before = malloc_usable_size(old);
  return before < size && is_refused(size) ? NULL : grown(before, NEXT(realloc)(old, size));
}

void *aligned_alloc(size_t alignment, size_t size) {
  return is_refused(size) ? NULL : grown(0, NEXT(aligned_alloc)(alignment, size));
}

int posix_memalign(void **out, size_t alignment, size_t size) {
  if (is_refused(size)) return ENOMEM;
  int error = NEXT(posix_memalign)(out, alignment, size);
  if (!error) grown(0, *out);
  return error;
}
