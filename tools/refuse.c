/* Stands in front of the C library's calls that take memory or start a thread, and refuses some of them.
 *
 * `cases/run-refusals` compiles it and puts it in front of a program by LD_PRELOAD. It counts the program's calls that
 * take memory or start a thread, all threads together, from the moment when the program writes the line `begin` to
 * standard output until it writes `end` (REFUSE_ALL: from the first call until the program ends). What a start of a
 * thread takes inside the C library counts too, and belongs to that start.
 *
 *   REFUSE_CALL   the number of the call that is refused; none if it is 0 or there is none
 *   REFUSE_REST   if set, all calls after that one are refused too, until `end`
 *   REFUSE_OF     `own`: only the calls of the thread that wrote `begin` are numbered; `others`: only those of all others
 *   REFUSE_PROCESSORS   how many processors the program is told that it may use, where its container has no fewer
 *   REFUSE_TELL   the file to which the findings are written when the program ends, one `NAME VALUE` a line:
 *                   calls     how many calls were counted
 *                   refused   how many of them were refused
 *                   at        which of its own counted calls the thread that wrote `begin` was refused first, or 0
 *                   own       a letter for each counted call of that thread, in order: `m` for memory, `t` for a
 *                             start of a thread, `i` for what is taken inside a start
 *                   started, joined, detached   threads, until `end`
 *                   left      how many blocks that were taken between the lines were not given back at the end
 *                   bytes     how many bytes these have
 */
#define _GNU_SOURCE
#include <dlfcn.h>
#include <errno.h>
#include <pthread.h>
#include <sched.h>
#include <stdatomic.h>
#include <stdint.h>
#include <stdio.h>
#include <stdlib.h>
#include <string.h>
#include <unistd.h>

/* More blocks than this are not watched; the findings then say so by `lost`. */
#define MOST_BLOCKS (1u << 16)
/* More calls of the thread that wrote `begin` than this are not told apart. */
#define MOST_OWN 65536

struct block {
  void *at;
  size_t bytes;
};

static atomic_long calls, numbered, refused, started, joined, detached, lost;
static atomic_int watching;
static long wanted;
static int rest, all, skips_own, skips_others;
static long processors;

static _Thread_local int is_own, inside_start;
static long own_calls, own_refused;
static char own[MOST_OWN];

static pthread_mutex_t lock = PTHREAD_MUTEX_INITIALIZER;
static struct block *blocks;

/* What the C library has behind each name. dlsym may itself take memory before it answers; that comes from here. */
static char early[65536];
static size_t early_used;

static void *take_early(size_t bytes) {
  size_t at = (early_used + 15) & ~(size_t)15;
  if (at + bytes > sizeof early) return NULL;
  early_used = at + bytes;
  return early + at;
}

static int is_early(const void *at) { return (const char *)at >= early && (const char *)at < early + sizeof early; }

static void *(*real_malloc)(size_t);
static void *(*real_calloc)(size_t, size_t);
static void *(*real_realloc)(void *, size_t);
static void *(*real_aligned_alloc)(size_t, size_t);
static void *(*real_memalign)(size_t, size_t);
static int (*real_posix_memalign)(void **, size_t, size_t);
static void (*real_free)(void *);
static ssize_t (*real_write)(int, const void *, size_t);
static int (*real_create)(pthread_t *, const pthread_attr_t *, void *(*)(void *), void *);
static int (*real_join)(pthread_t, void **);
static int (*real_detach)(pthread_t);
static void (*real_exit)(int);
static long (*real_sysconf)(int);
static int (*real_getaffinity)(pid_t, size_t, cpu_set_t *);
static int finding;

static void find(void) {
  if (real_free || finding) return;
  finding = 1;
  real_malloc = dlsym(RTLD_NEXT, "malloc");
  real_calloc = dlsym(RTLD_NEXT, "calloc");
  real_realloc = dlsym(RTLD_NEXT, "realloc");
  real_aligned_alloc = dlsym(RTLD_NEXT, "aligned_alloc");
  real_memalign = dlsym(RTLD_NEXT, "memalign");
  real_posix_memalign = dlsym(RTLD_NEXT, "posix_memalign");
  real_write = dlsym(RTLD_NEXT, "write");
  real_create = dlsym(RTLD_NEXT, "pthread_create");
  real_join = dlsym(RTLD_NEXT, "pthread_join");
  real_detach = dlsym(RTLD_NEXT, "pthread_detach");
  real_exit = (void (*)(int))dlsym(RTLD_NEXT, "_exit");
  real_sysconf = dlsym(RTLD_NEXT, "sysconf");
  real_getaffinity = dlsym(RTLD_NEXT, "sched_getaffinity");
  real_free = dlsym(RTLD_NEXT, "free");
  finding = 0;
}

/* Whether the next call of this thread is one that is to be refused. */
static int is_wanted(void) {
  long number;
  if (is_own ? skips_own : skips_others) return 0;
  number = atomic_fetch_add(&numbered, 1) + 1;
  return wanted > 0 && (number == wanted || (rest && number > wanted));
}

/* Counts a call, and answers whether it is refused. */
static int is_refused(char kind) {
  int is;
  if (!atomic_load(&watching)) return 0;
  atomic_fetch_add(&calls, 1);
  is = is_wanted();
  if (is_own) {
    if (own_calls < MOST_OWN) own[own_calls] = inside_start ? 'i' : kind;
    own_calls++;
    if (is && own_refused == 0) own_refused = own_calls;
  }
  if (is) atomic_fetch_add(&refused, 1);
  return is;
}

/* Remembers a block that was taken between the lines, except what the C library keeps of a thread. */
static void *remember(void *at, size_t bytes) {
  size_t slot;
  unsigned tried;
  if (at == NULL || inside_start || !atomic_load(&watching)) return at;
  pthread_mutex_lock(&lock);
  slot = ((uintptr_t)at >> 4) * 0x9E3779B97F4A7C15ull % MOST_BLOCKS;
  for (tried = 0; tried < MOST_BLOCKS; tried++, slot = (slot + 1) % MOST_BLOCKS)
    if (blocks[slot].at == NULL || blocks[slot].at == (void *)1) break;
  if (tried < MOST_BLOCKS) {
    blocks[slot].at = at;
    blocks[slot].bytes = bytes;
  } else {
    atomic_fetch_add(&lost, 1);
  }
  pthread_mutex_unlock(&lock);
  return at;
}

static void forget(void *at) {
  size_t slot;
  unsigned tried;
  if (at == NULL || blocks == NULL) return;
  pthread_mutex_lock(&lock);
  slot = ((uintptr_t)at >> 4) * 0x9E3779B97F4A7C15ull % MOST_BLOCKS;
  for (tried = 0; tried < MOST_BLOCKS && blocks[slot].at != NULL; tried++, slot = (slot + 1) % MOST_BLOCKS)
    if (blocks[slot].at == at) {
      blocks[slot].at = (void *)1;
      break;
    }
  pthread_mutex_unlock(&lock);
}

static void *none(void) {
  errno = ENOMEM;
  return NULL;
}

void *malloc(size_t bytes) {
  find();
  if (!real_malloc) return take_early(bytes);
  return is_refused('m') ? none() : remember(real_malloc(bytes), bytes);
}

void *calloc(size_t count, size_t bytes) {
  find();
  if (!real_calloc) return take_early(count * bytes);
  return is_refused('m') ? none() : remember(real_calloc(count, bytes), count * bytes);
}

void *realloc(void *block, size_t bytes) {
  void *moved;
  find();
  if (is_early(block)) {
    moved = malloc(bytes);
    if (moved) memcpy(moved, block, bytes);
    return moved;
  }
  if (is_refused('m')) return none();
  forget(block);
  moved = real_realloc(block, bytes);
  return remember(moved ? moved : block, bytes), moved;
}

void *aligned_alloc(size_t alignment, size_t bytes) {
  find();
  return is_refused('m') ? none() : remember(real_aligned_alloc(alignment, bytes), bytes);
}

void *memalign(size_t alignment, size_t bytes) {
  find();
  return is_refused('m') ? none() : remember(real_memalign(alignment, bytes), bytes);
}

int posix_memalign(void **block, size_t alignment, size_t bytes) {
  int answer;
  find();
  if (is_refused('m')) return ENOMEM;
  answer = real_posix_memalign(block, alignment, bytes);
  if (answer == 0) remember(*block, bytes);
  return answer;
}

void free(void *block) {
  if (is_early(block)) return;
  find();
  forget(block);
  real_free(block);
}

int pthread_create(pthread_t *thread, const pthread_attr_t *how, void *(*run)(void *), void *with) {
  int answer;
  find();
  if (is_refused('t')) return EAGAIN;
  inside_start++;
  answer = real_create(thread, how, run, with);
  inside_start--;
  if (answer == 0 && atomic_load(&watching)) atomic_fetch_add(&started, 1);
  return answer;
}

int pthread_join(pthread_t thread, void **left) {
  find();
  if (atomic_load(&watching)) atomic_fetch_add(&joined, 1);
  return real_join(thread, left);
}

int pthread_detach(pthread_t thread) {
  find();
  if (atomic_load(&watching)) atomic_fetch_add(&detached, 1);
  return real_detach(thread);
}

/* A program may write a line and its end in two pieces. */
static int is_line(const char *line, const void *text, size_t bytes) {
  const size_t length = strlen(line);
  return (bytes == length || (bytes == length + 1 && ((const char *)text)[length] == '\n')) &&
         memcmp(line, text, length) == 0;
}

ssize_t write(int to, const void *text, size_t bytes) {
  ssize_t answer;
  find();
  if (!all && to == STDOUT_FILENO && is_line("end", text, bytes)) atomic_store(&watching, 0);
  answer = real_write(to, text, bytes);
  if (!all && to == STDOUT_FILENO && is_line("begin", text, bytes)) {
    is_own = 1;
    atomic_store(&watching, 1);
  }
  return answer;
}

long sysconf(int name) {
  find();
  return processors && name == _SC_NPROCESSORS_ONLN ? processors : real_sysconf(name);
}

int sched_getaffinity(pid_t of, size_t bytes, cpu_set_t *mask) {
  long number;
  find();
  if (!processors) return real_getaffinity(of, bytes, mask);
  CPU_ZERO_S(bytes, mask);
  for (number = 0; number < processors; number++) CPU_SET_S(number, bytes, mask);
  return 0;
}

static int is_set_to(const char *name, const char *value) {
  const char *text = getenv(name);
  return text != NULL && strcmp(text, value) == 0;
}

static long number_in(const char *name) {
  const char *text = getenv(name);
  return text ? atol(text) : 0;
}

__attribute__((constructor)) static void begin(void) {
  find();
  wanted = number_in("REFUSE_CALL");
  rest = getenv("REFUSE_REST") != NULL;
  all = getenv("REFUSE_ALL") != NULL;
  skips_own = is_set_to("REFUSE_OF", "others");
  skips_others = is_set_to("REFUSE_OF", "own");
  processors = number_in("REFUSE_PROCESSORS");
  blocks = real_calloc(MOST_BLOCKS, sizeof *blocks);
  if (all) {
    is_own = 1;
    atomic_store(&watching, 1);
  }
}

/* Writes the findings, once. */
static void end(void) {
  static int is_told;
  const char *name = getenv("REFUSE_TELL");
  long left = 0;
  size_t bytes = 0, slot;
  FILE *tell;
  atomic_store(&watching, 0);
  if (name == NULL || is_told) return;
  is_told = 1;
  for (slot = 0; slot < MOST_BLOCKS; slot++)
    if (blocks[slot].at != NULL && blocks[slot].at != (void *)1) {
      left++;
      bytes += blocks[slot].bytes;
    }
  tell = fopen(name, "w");
  if (tell == NULL) return;
  fprintf(tell, "calls %ld\nrefused %ld\nat %ld\nown ", calls, refused, own_refused);
  fwrite(own, 1, own_calls < MOST_OWN ? own_calls : MOST_OWN, tell);
  fprintf(tell, "\nstarted %ld\njoined %ld\ndetached %ld\nleft %ld\nbytes %zu\nlost %ld\n", started, joined, detached,
          left, bytes, lost);
  fclose(tell);
}

__attribute__((destructor)) static void at_end(void) { end(); }

void _exit(int status) {
  find();
  end();
  real_exit(status);
  __builtin_unreachable();
}
