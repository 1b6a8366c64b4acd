// Refuses the thread whose number the variable FAIL_AT names, counted from 1, and makes an empty file that REFUSED names. For
// tests/test_refusals.py, which loads it before the program.
#define _GNU_SOURCE
#include <dlfcn.h>
#include <errno.h>
#include <fcntl.h>
#include <pthread.h>
#include <stdatomic.h>
#include <stdlib.h>
#include <unistd.h>

static atomic_long threads;

int pthread_create(pthread_t *thread, const pthread_attr_t *how, void *(*body)(void *), void *with) {
  int (*create)(pthread_t *, const pthread_attr_t *, void *(*)(void *), void *) = dlsym(RTLD_NEXT, "pthread_create");
  const char *at = getenv("FAIL_AT");
  long number = atomic_fetch_add(&threads, 1) + 1;
  if (!at || number != atol(at)) return create(thread, how, body, with);
  const char *refused = getenv("REFUSED");
  if (refused) close(creat(refused, 0600));
  return EAGAIN;
}
