/* A cell that two threads work on by turns, as a word says that changes in single atomic steps. It is right by the C
   standard; what a race detector prints of it, it prints since it does not follow such words. */
#include <pthread.h>
#include <sched.h>
#include <stdatomic.h>
#include <stdlib.h>

static _Atomic unsigned long turn;
static long **cell;

static long *next(long *old) {
  long *new = malloc(sizeof *new);
  *new = *old + 1;
  free(old);
  return new;
}

static void *serve(void *unused) {
  for (unsigned long found; (found = atomic_load(&turn)) != 2; sched_yield())
    if (found == 1) {
      *cell = next(*cell);
      atomic_store(&turn, 0);
    }
  return unused;
}

int main(void) {
  pthread_t thread;
  cell = malloc(sizeof *cell);
  *cell = calloc(1, sizeof **cell);
  pthread_create(&thread, NULL, serve, NULL);
  for (int at = 0; at < 100; at++) {
    *cell = next(*cell);
    atomic_store(&turn, 1);
    while (atomic_load(&turn) != 0) sched_yield();
  }
  atomic_store(&turn, 2);
  pthread_join(thread, NULL);
  return **cell == 200 ? 0 : 1;
}
