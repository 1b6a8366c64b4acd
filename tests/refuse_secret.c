// Refuses random bytes of the system. For tests/test_streams.py, which loads it before the program.
#include <errno.h>
#include <stddef.h>

int getentropy(void *bytes, size_t count) {
  (void)bytes, (void)count;
  errno = ENOSYS;
  return -1;
}
