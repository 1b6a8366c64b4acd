// Refuses the growth of memory whose number the variable FAIL_AT names, counted from 1, and counts them in the first eight bytes of the file
// that the variable GROWTHS names. For tests/test_refusals.py, which loads it before the program.
#include <errno.h>
#include <fcntl.h>
#include <stdatomic.h>
#include <stddef.h>
#include <stdlib.h>
#include <sys/mman.h>
#include <unistd.h>

void *__libc_malloc(size_t);
void *__libc_realloc(void *, size_t);
void *__libc_calloc(size_t, size_t);
void *__libc_memalign(size_t, size_t);

static atomic_long own, *growths = &own;

static int is_refused(void) {
  const char *at = getenv("FAIL_AT");
  long number = atomic_fetch_add(growths, 1) + 1;
  return at && number == atol(at);
}

__attribute__((constructor)) static void count_there(void) {
  const char *path = getenv("GROWTHS");
  int file = path ? open(path, O_RDWR | O_CREAT | O_TRUNC, 0600) : -1;
  if (file < 0 || ftruncate(file, sizeof *growths))
    return;
  void *there = mmap(NULL, sizeof *growths, PROT_READ | PROT_WRITE, MAP_SHARED, file, 0);
  if (there != MAP_FAILED)
    growths = there;
}

void *malloc(size_t size) {
  if (is_refused()) {
    errno = ENOMEM;
    return NULL;
  }
  return __libc_malloc(size);
}

void *realloc(void *old, size_t size) {
  if (is_refused()) {
    errno = ENOMEM;
    return NULL;
  }
  return __libc_realloc(old, size);
}

void *calloc(size_t count, size_t size) {
  if (is_refused()) {
    errno = ENOMEM;
    return NULL;
  }
  return __libc_calloc(count, size);
}

void *aligned_alloc(size_t alignment, size_t size) {
  if (is_refused()) {
    errno = ENOMEM;
    return NULL;
  }
  return __libc_memalign(alignment, size);
}

int posix_memalign(void **place, size_t alignment, size_t size) {
  void *block = is_refused() ? NULL : __libc_memalign(alignment, size);
  if (!block)
    return ENOMEM;
  *place = block;
  return 0;
}
