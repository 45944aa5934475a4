#include <stdio.h>

#include <registry.h>

/* (no report is more than eight times as long as its day text) */
static char day[1 << 16], room[8 * sizeof day];

int main(void) {
  size_t length = fread(day, 1, sizeof day, stdin);
  if (ferror(stdin)) return fprintf(stderr, "the day text cannot be read\n"), 5;
  struct registry_answer answer = registry_settle(day, length, room, sizeof room);
  if (length == sizeof day) return fprintf(stderr, "the day is too long\n"), 4;
  if (answer.status == REGISTRY_FAULT) fprintf(stderr, "row %lu: cause %u\n", (unsigned long)answer.row, answer.cause);
  if (fwrite(room, 1, answer.length, stdout) == answer.length && !fflush(stdout)) return (int)answer.status;
  return fprintf(stderr, "the report cannot be written\n"), 5;
}
