/* Stands before a program's malloc and realloc, and counts their calls in the first eight bytes of the
   file that COUNTED_IN names, which has to be there. */
#define _GNU_SOURCE
#include <dlfcn.h>
#include <fcntl.h>
#include <stdatomic.h>
#include <stdlib.h>
#include <sys/mman.h>
#include <unistd.h>

static _Atomic long before;
static _Atomic long *count = &before;

__attribute__((constructor)) static void begin(void) {
  const char *path = getenv("COUNTED_IN");
  int file = path ? open(path, O_RDWR) : -1;
  void *shared = file < 0 ? MAP_FAILED : mmap(NULL, sizeof *count, PROT_READ | PROT_WRITE, MAP_SHARED, file, 0);
  if (shared != MAP_FAILED) {
    atomic_store((_Atomic long *)shared, before);
    count = shared;
  }
  if (file >= 0) close(file);
}

void *malloc(size_t size) {
  static void *(*next)(size_t);
  if (!next) next = (void *(*)(size_t))dlsym(RTLD_NEXT, "malloc");
  ++*count;
  return next(size);
}

void *realloc(void *old, size_t size) {
  static void *(*next)(void *, size_t);
  if (!next) next = (void *(*)(void *, size_t))dlsym(RTLD_NEXT, "realloc");
  ++*count;
  return next(old, size);
}
