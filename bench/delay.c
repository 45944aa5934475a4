/* Holds threads up at random, in front of the C library: each thread at its start, and any thread now and then when it takes
 * memory. `bench/long.py` compiles it and puts it in front of a program by LD_PRELOAD. What is drawn comes of DELAY_SEED and of
 * the number of the thread; when a thread meets another one differs from run to run all the same. */
#define _GNU_SOURCE
#include <dlfcn.h>
#include <pthread.h>
#include <stdatomic.h>
#include <stdint.h>
#include <stdlib.h>
#include <time.h>

/* One of so many allocations is held up, and for less than so many nanoseconds. */
#define ONE_OF 64
#define MOST 200000

static void *(*real_malloc)(size_t);
static void *(*real_realloc)(void *, size_t);
static int (*real_create)(pthread_t *, const pthread_attr_t *, void *(*)(void *), void *);
static atomic_uint threads;
static uint64_t seed;
static _Thread_local uint64_t drawn;

static uint64_t draw(void) {
  if (drawn == 0) drawn = (seed + 1) * 0x9E3779B97F4A7C15ull + atomic_fetch_add(&threads, 1) * 0xD1B54A32D192ED03ull + 1;
  drawn ^= drawn << 13;
  drawn ^= drawn >> 7;
  drawn ^= drawn << 17;
  return drawn >> 8;
}

static void hold_up(unsigned one_of) {
  struct timespec time = {0, 0};
  if (draw() % one_of != 0) return;
  time.tv_nsec = draw() % MOST;
  nanosleep(&time, NULL);
}

__attribute__((constructor)) static void begin(void) {
  const char *text = getenv("DELAY_SEED");
  seed = text ? strtoull(text, NULL, 10) : 0;
  real_realloc = dlsym(RTLD_NEXT, "realloc");
  real_create = dlsym(RTLD_NEXT, "pthread_create");
  real_malloc = dlsym(RTLD_NEXT, "malloc");
}

extern void *__libc_malloc(size_t);
extern void *__libc_realloc(void *, size_t);

void *malloc(size_t bytes) {
  if (!real_malloc) return __libc_malloc(bytes);
  hold_up(ONE_OF);
  return real_malloc(bytes);
}

void *realloc(void *block, size_t bytes) {
  if (!real_realloc) return __libc_realloc(block, bytes);
  hold_up(ONE_OF);
  return real_realloc(block, bytes);
}

struct start {
  void *(*run)(void *);
  void *with;
};

static void *held_up(void *from) {
  struct start start = *(struct start *)from;
  free(from);
  hold_up(2);
  return start.run(start.with);
}

int pthread_create(pthread_t *thread, const pthread_attr_t *how, void *(*run)(void *), void *with) {
  struct start *start = __libc_malloc(sizeof *start);
  int answer;
  if (start == NULL) return real_create(thread, how, run, with);
  start->run = run;
  start->with = with;
  answer = real_create(thread, how, held_up, start);
  if (answer != 0) free(start);
  return answer;
}
