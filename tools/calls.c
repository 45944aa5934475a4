/* Calls the library as C programs do, for cases/run-library: looks at every promise of registry.h that a call can show.
 *
 *   calls answer           answers each request
 *   calls threads TIMES    asks all requests from eight threads at once, so many times, and compares the answers
 *   calls refuse           refuses each allocation of each request in turn, in rooms that fit and in such that do not, and
 *                          counts the memory that each call has not given back
 *   calls stack            asks each request in a thread of its own, on a stack of which each byte is marked, and writes for
 *                          each command the most bytes of stack that a call took
 *   calls time TIMES       asks each request so many times in the same room, and writes the processor milliseconds of the
 *                          first call and of the fastest one
 *
 * Standard input has the requests, one after another: a line COMMAND ACCOUNT LENGTH, and so many bytes of a day text.
 * For the command `next` the account is the date of the next day, as the number 20251001.
 * `answer` writes for each a line STATUS CAUSE ROW LENGTH and the text. A promise that does not hold ends the program
 * with status 1 and a line on standard error. It is linked with --wrap for malloc, realloc and free.
 */
#include <pthread.h>
#include <registry.h>
#include <stdatomic.h>
#include <stdio.h>
#include <stdlib.h>
#include <string.h>
#include <time.h>

enum { THREADS = 8, MOST_REQUESTS = 1 << 16, STACK = 1 << 20 };

/* What stands in a room before a call, so that a byte that is written shows: each byte is another one than its neighbours. */
static char mark(size_t at) { return (char)(0x80 | (at * 37 % 127)); }

static void fail(const char *what, const char *command) {
  fprintf(stderr, "calls: %s: %s\n", command, what);
  exit(1);
}

/* ---- the allocations of the library */

void *__real_malloc(size_t bytes);
void *__real_realloc(void *at, size_t bytes);
void __real_free(void *at);

/* Only while one thread refuses, these are looked at. */
static int is_counting;
static long taken, refused_at, left;

static int is_refused(void) { return is_counting && ++taken == refused_at; }

void *__wrap_malloc(size_t bytes) {
  if (is_refused()) return NULL;
  if (is_counting) left++;
  return __real_malloc(bytes);
}

void *__wrap_realloc(void *at, size_t bytes) {
  if (is_refused()) return NULL;
  if (is_counting && !at) left++;
  return __real_realloc(at, bytes);
}

void __wrap_free(void *at) {
  if (is_counting && at) left--;
  __real_free(at);
}

/* ---- requests */

struct request {
  char command[16];
  unsigned account;
  size_t length;
  char *day;
};

static struct request requests[MOST_REQUESTS];
static size_t count;

static void *take(size_t bytes) {
  void *at = __real_malloc(bytes ? bytes : 1);
  if (!at) fail("no memory for a request", "");
  return at;
}

static void read_requests(void) {
  struct request r;
  while (scanf("%15s %u %zu", r.command, &r.account, &r.length) == 3) {
    r.day = take(r.length);
    if (getchar() != '\n' || fread(r.day, 1, r.length, stdin) != r.length || count == MOST_REQUESTS)
      fail("this is no request", r.command);
    requests[count++] = r;
  }
}

static struct registry_answer call(const struct request *r, char *room, size_t length) {
  static const struct {
    const char *command;
    struct registry_answer (*call)(const char *, size_t, char *, size_t);
  } calls[] = {{"settle", registry_settle},
               {"try", registry_try},
               {"plan", registry_plan},
               {"statements", registry_statements},
               {"figures", registry_figures},
               {"totals", registry_totals}};
  /* (a null pointer will do for no bytes) */
  const char *day = r->length ? r->day : NULL;
  for (size_t at = 0; at < sizeof calls / sizeof *calls; at++)
    if (!strcmp(r->command, calls[at].command)) return calls[at].call(day, r->length, room, length);
  if (!strcmp(r->command, "next")) {
    char date[16];
    int written = snprintf(date, sizeof date, "%04u-%02u-%02u", r->account / 10000, r->account / 100 % 100, r->account % 100);
    return registry_next(day, r->length, date, (size_t)written, room, length);
  }
  if (strcmp(r->command, "statement")) fail("there is no such command", r->command);
  return registry_statement(day, r->length, r->account, room, length);
}

static int is_same(struct registry_answer a, struct registry_answer b) {
  return a.status == b.status && a.cause == b.cause && a.row == b.row && a.length == b.length;
}

/* Asks with a room of this length, and looks whether each byte behind the text, or each byte if there is none, is as it
 * was, and the day text too. Answers the room in `*room`. */
static struct registry_answer ask(const struct request *r, size_t length, char **room) {
  enum { BEHIND = 64 };
  char *all = take(length + BEHIND), *day = take(r->length);
  memcpy(day, r->day, r->length);
  for (size_t at = 0; at < length + BEHIND; at++) all[at] = mark(at);
  struct registry_answer answer = call(r, all, length);
  size_t written = answer.status == REGISTRY_DONE && answer.length <= length ? answer.length : 0;
  for (size_t at = written; at < length + BEHIND; at++)
    if (all[at] != mark(at)) fail("a byte behind the text was written", r->command);
  if (memcmp(day, r->day, r->length)) fail("the day text was written", r->command);
  __real_free(day);
  *room = all;
  return answer;
}

/* ---- answer */

/* Settles in the room that is told to be enough for the report of each day text of this length, and so has to be. */
static void ask_in_most(const struct request *r, struct registry_answer answer, const char *text) {
  size_t most = registry_report_most(r->length);
  char *room;
  if (answer.length > most) fail("a report is longer than any is told to be", r->command);
  if (!is_same(ask(r, most, &room), answer)) fail("another room has another answer", r->command);
  if (memcmp(room, text, answer.length)) fail("another room has another text", r->command);
  __real_free(room);
}

/* Asks with no room, with one too small by a byte, with one that fits, and with more: all tell the same. */
static struct registry_answer ask_in_rooms(const struct request *r, char **text) {
  struct registry_answer answer = call(r, NULL, 0);
  size_t rooms[] = {answer.length ? answer.length - 1 : 0, answer.length + 1000, answer.length};
  char *room = NULL;
  for (size_t at = 0; at < 3; at++) {
    __real_free(room);
    if (!is_same(ask(r, rooms[at], &room), answer)) fail("another room has another answer", r->command);
  }
  if (!strcmp(r->command, "settle")) ask_in_most(r, answer, room);
  *text = room;
  return answer;
}

static void answer_all(void) {
  for (size_t at = 0; at < count; at++) {
    char *text;
    struct registry_answer answer = ask_in_rooms(&requests[at], &text);
    printf("%u %u %llu %zu\n", answer.status, answer.cause, (unsigned long long)answer.row, answer.length);
    fwrite(text, 1, answer.length, stdout);
    __real_free(text);
  }
  if (fflush(stdout)) fail("standard output takes nothing", "answer");
}

/* ---- threads */

static struct registry_answer answers[MOST_REQUESTS];
static char *texts[MOST_REQUESTS];
static long times;
static atomic_int begun;

/* Goes through all requests, each thread from another one on, and compares. */
static void *go_through(void *first) {
  atomic_fetch_add(&begun, 1);
  while (atomic_load(&begun) < THREADS) continue;
  for (size_t turn = 0; turn < count * (size_t)times; turn++) {
    size_t at = ((size_t)first * count / THREADS + turn) % count;
    char *room;
    if (!is_same(ask(&requests[at], answers[at].length, &room), answers[at])) fail("another thread, another answer", requests[at].command);
    if (memcmp(room, texts[at], answers[at].length)) fail("another thread, another text", requests[at].command);
    __real_free(room);
  }
  return NULL;
}

static void ask_from_threads(void) {
  pthread_t threads[THREADS];
  for (size_t at = 0; at < count; at++) answers[at] = ask_in_rooms(&requests[at], &texts[at]);
  for (size_t at = 0; at < THREADS; at++)
    if (pthread_create(&threads[at], NULL, go_through, (void *)at)) fail("no thread", "threads");
  for (size_t at = 0; at < THREADS; at++) pthread_join(threads[at], NULL);
  for (size_t at = 0; at < count; at++) __real_free(texts[at]);
  printf("%zu requests, %d threads, %ld times\n", count, THREADS, times);
}

/* ---- refuse */

static struct registry_answer ask_counted(const struct request *r, long refused, size_t length, char *room) {
  taken = left = 0, refused_at = refused, is_counting = 1;
  struct registry_answer answer = call(r, room, length);
  is_counting = 0;
  if (left) fail("memory was not given back", r->command);
  return answer;
}

/* How many refused allocations changed no answer: room that a call would like to have at once, and does without. */
static long made_up_for;

/* Whether a call whose allocation was refused gave the whole answer all the same, and the text if there is room for it. */
static int is_made_up_for(struct registry_answer answer, struct registry_answer whole, const char *text, size_t length, const char *room) {
  if (!is_same(answer, whole)) return 0;
  size_t written = whole.status == REGISTRY_DONE && whole.length <= length ? whole.length : 0;
  for (size_t at = written; at < length; at++)
    if (room[at] != mark(at)) return 0;
  return !written || !memcmp(room, text, written);
}

/* Refuses each allocation of a request in turn, in a room of this length, until none is refused: answers how many there
 * are. */
static long refuse_in(const struct request *r, size_t length, struct registry_answer whole, const char *text) {
  char *room = take(length);
  long refused = 0, told = 0;
  for (;;) {
    for (size_t at = 0; at < length; at++) room[at] = mark(at);
    struct registry_answer answer = ask_counted(r, ++refused, length, room);
    if (taken < refused) break;
    if (is_made_up_for(answer, whole, text, length, room)) {
      made_up_for++;
      continue;
    }
    if (answer.status != REGISTRY_NO_MEMORY || answer.cause || answer.row || answer.length) fail("a refusal is not told", r->command);
    for (size_t at = 0; at < length; at++)
      if (room[at] != mark(at)) fail("a byte was written after a refusal", r->command);
    told++;
  }
  if (!told && whole.status == REGISTRY_DONE && whole.length) fail("no refusal is told", r->command);
  if (!is_same(ask_counted(r, 0, length, room), whole)) fail("another answer after refusals", r->command);
  if (whole.length <= length && memcmp(room, text, whole.length)) fail("another text after refusals", r->command);
  __real_free(room);
  return refused - 1;
}

/* The same with no room, with one that is too small by a byte, and with a larger one than is needed. */
static long refuse_each(const struct request *r) {
  char *text;
  struct registry_answer whole = ask_in_rooms(r, &text);
  long refused = refuse_in(r, 0, whole, text) + refuse_in(r, whole.length + 8, whole, text);
  if (whole.length > 1) refused += refuse_in(r, whole.length - 1, whole, text);
  __real_free(text);
  return refused;
}

static void refuse_all(void) {
  long all = 0;
  for (size_t at = 0; at < count; at++) all += refuse_each(&requests[at]);
  printf("%zu requests, %ld allocations refused, %ld of them made up for\n", count, all, made_up_for);
}

/* ---- stack */

static void *take_nothing(void *none) { return none; }

static void *call_once(void *request) {
  call(request, NULL, 0);
  return NULL;
}

/* How many bytes of its stack a thread has written, whose own data lies at the end of it. */
static size_t written_by(void *(*work)(void *), void *of) {
  static char *stack;
  if (!stack && posix_memalign((void **)&stack, 1 << 16, STACK)) fail("no stack", "stack");
  memset(stack, mark(0), STACK);
  pthread_attr_t attributes;
  pthread_t thread;
  if (pthread_attr_init(&attributes) || pthread_attr_setstack(&attributes, stack, STACK)) fail("no stack", "stack");
  if (pthread_create(&thread, &attributes, work, of)) fail("no thread", "stack");
  pthread_join(thread, NULL);
  pthread_attr_destroy(&attributes);
  size_t free_bytes = 0;
  while (free_bytes < STACK && stack[free_bytes] == mark(0)) free_bytes++;
  return STACK - free_bytes;
}

static void measure_stacks(void) {
  size_t own = written_by(take_nothing, NULL);
  for (size_t at = 0; at < count; at++) {
    size_t most = 0;
    for (size_t other = at; other < count; other++) {
      if (!*requests[other].command || strcmp(requests[other].command, requests[at].command)) continue;
      size_t bytes = written_by(call_once, &requests[other]) - own;
      if (bytes > most) most = bytes;
      if (other != at) *requests[other].command = 0;
    }
    if (most) printf("%s %zu\n", requests[at].command, most);
  }
}

/* ---- time */

static double milliseconds(void) {
  struct timespec now;
  clock_gettime(CLOCK_PROCESS_CPUTIME_ID, &now);
  return 1e3 * (double)now.tv_sec + 1e-6 * (double)now.tv_nsec;
}

static void time_all(void) {
  for (size_t at = 0; at < count; at++) {
    size_t length = 2 * requests[at].length + 4096;
    char *room = take(length);
    double first = 0, least = 0;
    for (long turn = 0; turn < times; turn++) {
      double begun = milliseconds();
      if (call(&requests[at], room, length).status != REGISTRY_DONE) fail("no text", requests[at].command);
      double took = milliseconds() - begun;
      if (!turn) first = least = took;
      if (took < least) least = took;
    }
    __real_free(room);
    printf("%.2f %.2f\n", first, least);
  }
}

int main(int words, char **word) {
  read_requests();
  if (registry_version() != REGISTRY_VERSION) fail("another version than the header's", "version");
  if (words == 2 && !strcmp(word[1], "answer"))
    answer_all();
  else if (words == 3 && !strcmp(word[1], "threads") && (times = atol(word[2])) > 0)
    ask_from_threads();
  else if (words == 2 && !strcmp(word[1], "refuse"))
    refuse_all();
  else if (words == 2 && !strcmp(word[1], "stack"))
    measure_stacks();
  else if (words == 3 && !strcmp(word[1], "time") && (times = atol(word[2])) > 0)
    time_all();
  else
    fail("write answer, threads TIMES, refuse, stack or time TIMES", "words");
  return 0;
}
