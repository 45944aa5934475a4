/* Settles a day text and prints its report.
 *
 *   cc settle.c $(pkg-config --cflags --libs registry) -o settle
 *   ./settle day.csv > day.report
 *
 * Exit statuses are those of the program: 0 settled, 2 wrong words, 3 the text has a fault, 4 out of memory, 5 the file
 * cannot be read or the report cannot be written.
 */
#include <stdio.h>
#include <stdlib.h>

#include <registry.h>

/* Bytes that this program owns. */
struct bytes {
  char *start;
  size_t length;
};

static int fail(int status, const char *why) {
  fprintf(stderr, "settle: %s\n", why);
  return status;
}

/* Reads a file to its end. The answer starts with NULL if that fails. */
static struct bytes read_file(FILE *file) {
  struct bytes read = {malloc(1), 0};
  size_t room = 1, more;
  while (read.start && (more = fread(read.start + read.length, 1, room - read.length, file)) > 0) {
    read.length += more;
    if (read.length == room) {
      char *larger = realloc(read.start, room *= 2);
      if (!larger) free(read.start);
      read.start = larger;
    }
  }
  if (read.start && ferror(file)) {
    free(read.start);
    read.start = NULL;
  }
  return read;
}

/* Settles a day into memory that this function takes: as much as any report of a day text of this length needs. */
static struct registry_answer settle(struct bytes day, struct bytes *report) {
  size_t room = registry_report_most(day.length);
  report->start = malloc(room ? room : 1);
  if (!report->start) return (struct registry_answer){REGISTRY_NO_MEMORY, 0, 0, 0};
  struct registry_answer answer = registry_settle(day.start, day.length, report->start, room);
  report->length = answer.length;
  return answer;
}

/* Says the first fault of a day text as the program does. */
static int tell_fault(struct registry_answer answer) {
  char word[16];
  int length = (int)registry_cause_word(answer.cause, word, sizeof word).length;
  fprintf(stderr, "row %llu: %.*s\n", (unsigned long long)answer.row, length, word);
  return 3;
}

/* Says what became of a day, and answers the exit status. */
static int tell(struct registry_answer answer, struct bytes report) {
  switch (answer.status) {
    case REGISTRY_DONE:
      if (fwrite(report.start, 1, report.length, stdout) != report.length || fflush(stdout))
        return fail(5, "the report cannot be written");
      return 0;
    case REGISTRY_FAULT:
      return tell_fault(answer);
    default:
      return fail(4, "out of memory");
  }
}

int main(int count, char **words) {
  if (count != 2) return fail(2, "usage: settle DAY");
  if (registry_version() != REGISTRY_VERSION) return fail(2, "the library is of another version than its header");
  FILE *file = fopen(words[1], "rb");
  if (!file) return fail(5, "the day text cannot be read");
  struct bytes day = read_file(file), report = {NULL, 0};
  fclose(file);
  if (!day.start) return fail(5, "the day text cannot be read");
  struct registry_answer answer = settle(day, &report);
  int status = tell(answer, report);
  free(report.start);
  free(day.start);
  return status;
}
