/* Asks the library where the first fault of a text stands, for cases/run-callers.
 *
 * Standard input has texts, one after another: a line LENGTH, and so many bytes. It writes a line for each: STATUS, CAUSE,
 * ROW, FIELD, COLUMN, the name of the column and the sentence of the fault, with a | between two of them. With the word
 * `refuse` it writes nothing, but refuses each allocation of each text in turn: a call must then say that memory ran out, or
 * what it says otherwise, and give all memory back. A promise that does not hold ends it with status 1 and a line on
 * standard error. It is linked with --wrap for malloc, realloc and free.
 */
#include <registry.h>
#include <stdio.h>
#include <stdlib.h>
#include <string.h>

enum { ROOM = 256 };

void *__real_malloc(size_t bytes);
void *__real_realloc(void *at, size_t bytes);
void __real_free(void *at);

static int is_counting;
static long taken, refused_at, left;

static int is_refused(void) { return is_counting && ++taken == refused_at; }

void *__wrap_malloc(size_t bytes) {
  if (is_refused()) return NULL;
  if (is_counting) left++;
  return __real_malloc(bytes);
}

void *__wrap_realloc(void *at, size_t bytes) {
  if (is_refused()) return NULL;
  if (is_counting && !at) left++;
  return __real_realloc(at, bytes);
}

void __wrap_free(void *at) {
  if (is_counting && at) left--;
  __real_free(at);
}

static void fail(const char *what) {
  fprintf(stderr, "places: %s\n", what);
  exit(1);
}

/* The text of a call that tells words: exactly so many bytes are written as it tells. */
static void put_words(struct registry_answer (*call)(uint32_t, uint32_t, char *, size_t), uint32_t a, uint32_t b) {
  char room[ROOM];
  memset(room, '~', ROOM);
  struct registry_answer answer = call(a, b, room, ROOM);
  if (answer.status != REGISTRY_DONE || answer.length >= ROOM || room[answer.length] != '~') fail("words are not told");
  printf("|%.*s", (int)answer.length, room);
}

static struct registry_answer name(uint32_t column, uint32_t unused, char *room, size_t length) {
  (void)unused;
  return registry_field_name(column, room, length);
}

static void tell(const char *day, size_t length) {
  struct registry_place at = registry_find_fault(length ? day : NULL, length);
  printf("%u|%u|%llu|%u|%u", at.status, at.cause, (unsigned long long)at.row, at.field, at.column);
  put_words(name, at.column, 0);
  put_words(registry_fault_sentence, at.cause, at.column);
  putchar('\n');
}

static int is_same(struct registry_place a, struct registry_place b) {
  return a.status == b.status && a.cause == b.cause && a.row == b.row && a.field == b.field && a.column == b.column;
}

static void refuse(const char *day, size_t length) {
  struct registry_place wanted = registry_find_fault(day, length), none = {REGISTRY_NO_MEMORY, 0, 0, 0, 0};
  for (refused_at = 1;; refused_at++) {
    taken = left = 0;
    is_counting = 1;
    struct registry_place found = registry_find_fault(day, length);
    is_counting = 0;
    if (left) fail("memory was not given back");
    if (!is_same(found, none) && !is_same(found, wanted)) fail("a refused call says something else");
    if (taken < refused_at) return;
  }
}

int main(int count, char **words) {
  size_t length;
  while (scanf("%zu", &length) == 1) {
    char *day = __real_malloc(length ? length : 1);
    if (!day || getchar() != '\n' || fread(day, 1, length, stdin) != length) fail("this is no text");
    if (count > 1 && !strcmp(words[1], "refuse"))
      refuse(day, length);
    else
      tell(day, length);
    __real_free(day);
  }
  return 0;
}
