/* The native methods of registry.Registry: copies the day text out of the Java heap, asks the library, and copies the
 * text back. No array of Java is locked while the library works. */
#include <jni.h>
#include <registry.h>
#include <stdlib.h>

typedef struct registry_answer (*command)(const char *, size_t, char *, size_t);

static const command commands[] = {registry_settle,  registry_try,    registry_plan,
                                   registry_figures, registry_totals, registry_statements};
enum { STATEMENT = sizeof commands / sizeof *commands, NEXT };
/* A date is YYYY-MM-DD. */
enum { DATE_LENGTH = 10 };

/* What is asked: a command, of a statement with an account, of the next day with its date. */
struct question {
  jint number, account;
  char date[DATE_LENGTH];
};

static struct registry_answer ask(struct question asked, const char *day, size_t length, char *room, size_t size) {
  if (asked.number == NEXT) return registry_next(day, length, asked.date, DATE_LENGTH, room, size);
  if (asked.number == STATEMENT) return registry_statement(day, length, (uint32_t)asked.account, room, size);
  return commands[asked.number](day, length, room, size);
}

/* Asks with a room, and if that is too small, once more with one of the right size. The caller frees the room. */
static struct registry_answer ask_with_room(struct question asked, const char *day, size_t length, char **room) {
  size_t size = 2 * length + 4096;
  for (;;) {
    *room = malloc(size);
    if (!*room) return (struct registry_answer){REGISTRY_NO_MEMORY, 0, 0, 0};
    struct registry_answer answer = ask(asked, day, length, *room, size);
    if (answer.status != REGISTRY_DONE || answer.length <= size) return answer;
    free(*room);
    size = answer.length;
  }
}

/* The text as an array of Java, or null if there is none or it does not fit into one. */
static jbyteArray text_of(JNIEnv *env, struct registry_answer *answer, const char *room) {
  if (answer->status != REGISTRY_DONE) return NULL;
  jbyteArray text = answer->length <= INT32_MAX ? (*env)->NewByteArray(env, (jsize)answer->length) : NULL;
  if (text)
    (*env)->SetByteArrayRegion(env, text, 0, (jsize)answer->length, (const jbyte *)room);
  else
    answer->status = REGISTRY_NO_MEMORY;
  return text;
}

/* Status, cause and row, and of a fault its field and the column of this field. */
static void tell(JNIEnv *env, jlongArray told, struct registry_answer answer, const char *day, size_t length) {
  struct registry_place place = {0, 0, 0, 0, 0};
  if (answer.status == REGISTRY_FAULT) place = registry_find_fault(day, length);
  jlong values[] = {answer.status, answer.cause, (jlong)answer.row, place.field, place.column};
  (*env)->SetLongArrayRegion(env, told, 0, sizeof values / sizeof *values, values);
}

JNIEXPORT jbyteArray JNICALL Java_registry_Registry_call(JNIEnv *env, jclass self, jint number, jbyteArray bytes,
                                                         jint account, jbyteArray date, jlongArray told) {
  (void)self;
  struct question asked = {number, account, {0}};
  (*env)->GetByteArrayRegion(env, date, 0, DATE_LENGTH, (jbyte *)asked.date);
  jsize length = (*env)->GetArrayLength(env, bytes);
  char *day = malloc(length ? (size_t)length : 1), *room = NULL;
  struct registry_answer answer = {REGISTRY_NO_MEMORY, 0, 0, 0};
  if (day) {
    (*env)->GetByteArrayRegion(env, bytes, 0, length, (jbyte *)day);
    answer = ask_with_room(asked, day, (size_t)length, &room);
  }
  jbyteArray text = text_of(env, &answer, room);
  if (!(*env)->ExceptionCheck(env)) tell(env, told, answer, day, (size_t)length);
  free(room);
  free(day);
  return text;
}

JNIEXPORT jlong JNICALL Java_registry_Registry_most(JNIEnv *env, jclass self, jlong day_length) {
  (void)env, (void)self;
  size_t most = registry_report_most((size_t)day_length);
  return most < INT64_MAX ? (jlong)most : INT64_MAX;
}

/* Words that the library tells, whatever it is asked: the version of the engine, the word of a cause, the name and the
 * sentence of a check, the name of a column, and what is wrong by a cause in a column. */
JNIEXPORT jstring JNICALL Java_registry_Registry_words(JNIEnv *env, jclass self, jint which, jint number, jint column) {
  (void)self;
  char room[129];
  uint32_t asked = (uint32_t)number;
  struct registry_answer answer = which == 0   ? registry_version_string(room, 128)
                                  : which == 1 ? registry_cause_word(asked, room, 128)
                                  : which == 2 ? registry_refusal_word(asked, room, 128)
                                  : which == 3 ? registry_refusal_sentence(asked, room, 128)
                                  : which == 4 ? registry_field_name(asked, room, 128)
                                               : registry_fault_sentence(asked, (uint32_t)column, room, 128);
  room[answer.length <= 128 ? answer.length : 0] = 0;
  return (*env)->NewStringUTF(env, room);
}
