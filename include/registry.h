/* The settlement engine of an emission allowance registry, for programs in other languages.
 *
 *   char room[65536];
 *   struct registry_answer answer = registry_settle(day, day_length, room, sizeof room);
 *   if (answer.status == REGISTRY_DONE && answer.length <= sizeof room)
 *     fwrite(room, 1, answer.length, stdout);
 *
 * A call with a day text reads it and writes the text of a command, several such texts, or the beginning of the next
 * day's. The other calls tell a length, a word or a version, and take no memory. docs/FORMATS.md describes all of these
 * texts. Amounts in them are whole allowances, each of one tonne of carbon dioxide equivalent; figures are tonnes;
 * dates are YYYY-MM-DD.
 *
 * What a caller gives
 *   day, day_length    the day text: so many bytes that may be read. Any bytes will do: if they are no day text, the
 *                      answer says where. There is no zero at the end.
 *   room, room_length  where the text goes: so many bytes that may be read and written. They do not overlap the day
 *                      text or a date, and nothing else reads or writes them during the call.
 *   A pointer with the length 0 may be null. A length is below 2^63, and in bytes.
 *   All of this memory stays the caller's. A call keeps no pointer.
 *
 * What a caller gets
 *   If there is room for all of the text, it stands at the front of the room, without a zero at the end. If there is
 *   not, the room is unchanged, and the answer has the length that is needed: 0 bytes of room ask for it. The bytes
 *   behind the text, and after a fault all bytes of the room, are as they were.
 *
 * A call takes memory by malloc and realloc and gives all of it back by free: of a row with very many fields, such as a
 * text of commas, some 25 bytes for each byte. If there is not so much, it answers REGISTRY_NO_MEMORY. It has no state,
 * starts no thread, takes no lock, and uses no file and no stream. So calls may come from several threads at once, each
 * with a room of its own; day texts may be shared. Not from a signal handler, and not in a forked child of a process
 * with several threads. A call needs less than 128 KiB of the stack of its thread, however long the day text is.
 *
 * The library was proved to answer as it is said here (crates/registry_c), if the caller gives what is asked for above:
 * no call tests that. This header is written by hand, and cases/run-library compares it with the crate.
 */
#ifndef REGISTRY_H
#define REGISTRY_H

#include <stddef.h>
#include <stdint.h>

#ifdef __cplusplus
extern "C" {
#endif

/* The version of this header: registry_version() of a library that fits it answers the same. */
#define REGISTRY_VERSION 1
/* The version of the release that it belongs to. */
#define REGISTRY_VERSION_STRING "1.2"

/* What became of a call. The numbers are the exit statuses of the program. */
enum registry_status {
  REGISTRY_DONE = 0,       /* there is a text */
  REGISTRY_NO_ACCOUNT = 2, /* the account of a statement is not in the book of the day */
  REGISTRY_FAULT = 3,      /* the bytes are no day text: cause and row tell the first fault */
  REGISTRY_NO_MEMORY = 4,  /* memory ran out: all that the call took was given back */
  REGISTRY_NO_DATE = 6     /* of registry_next alone, and no exit status: the date is none, or not later than the day */
};

/* What is wrong with the first faulty row. If several apply to it, the first of: END, TAG, FIELDS, the first faulty
   field from the left, ORDER, and a LIMIT of how many there may be, of a sum, or of a record number. */
enum registry_cause {
  REGISTRY_END = 1,     /* the text ends although a row must follow, or a row follows the row `end` */
  REGISTRY_TAG = 2,     /* the tag is unknown or not allowed here */
  REGISTRY_FIELDS = 3,  /* the number of fields is wrong */
  REGISTRY_NUMBER = 4,  /* a field is not a number in its one spelling, or the number is 2^64 or more */
  REGISTRY_DATE = 5,    /* a field is not a date */
  REGISTRY_WORD = 6,    /* a field is not one of the words allowed here */
  REGISTRY_FORMAT = 7,  /* the version of the format is neither 1 nor 2; the program says `version` */
  REGISTRY_LIMIT = 8,   /* something is outside its limits */
  REGISTRY_ORDER = 9    /* a row is out of order in its list, or a period ends before it begins */
};

struct registry_answer {
  uint32_t status; /* one of enum registry_status */
  uint32_t cause;  /* after REGISTRY_FAULT one of enum registry_cause, else 0 */
  uint64_t row;    /* after REGISTRY_FAULT the number of the row, counted from 1, else 0; if the text ends too early,
                      the number of rows plus 1 */
  size_t length;   /* after REGISTRY_DONE the bytes of the text, also if there was no room for them, else 0 */
};

/* Where the first fault of a day text stands. */
struct registry_place {
  uint32_t status; /* REGISTRY_DONE if the text has no fault, REGISTRY_FAULT, or REGISTRY_NO_MEMORY */
  uint32_t cause;  /* after REGISTRY_FAULT one of enum registry_cause, else 0 */
  uint64_t row;    /* after REGISTRY_FAULT the number of the row, as in struct registry_answer, else 0 */
  uint32_t field;  /* the number of the faulty field in its row, counted from 1: the tag is 1. 0 if the fault is the
                      row's as a whole */
  uint32_t column; /* what stands in this field: registry_field_name has its name. 0 if field is 0 */
};

/* Settles the day: its report, which has the log, the accounts after the day, and the totals. The same day gives the
 * same bytes as `registry settle`. Instructions that are refused are no fault: the log says why. */
struct registry_answer registry_settle(const char *day, size_t day_length, char *room, size_t room_length);

/* How many bytes the report of a day text of this length has at most: eight times as many, or SIZE_MAX if that is more.
 * So with a room of so many bytes one call of registry_settle is enough. Room that no text reaches is not touched. */
size_t registry_report_most(size_t day_length);

/* Settles the day as a trial: the log rows of the report alone, one for each instruction. The text may be empty. */
struct registry_answer registry_try(const char *day, size_t day_length, char *room, size_t room_length);

/* Which instructions must wait for which others, as `registry plan`. Nothing is settled. */
struct registry_answer registry_plan(const char *day, size_t day_length, char *room, size_t room_length);

/* What an account held before the day, its log rows, and what it holds after, as `registry statement ACCOUNT`. Any
 * number will do: REGISTRY_NO_ACCOUNT says that no account of the day has it. */
struct registry_answer registry_statement(const char *day, size_t day_length, uint32_t account, char *room,
                                          size_t room_length);

/* The statements of all accounts in one text, in the order of the accounts: each is that of registry_statement, and
 * ends with its row `end`. The day is settled once, and each log row is looked at once. */
struct registry_answer registry_statements(const char *day, size_t day_length, char *room, size_t room_length);

/* The text of the next day up to its instructions: the heading of the day with the date of the next one and the next
 * record number, and the accounts as the day leaves them, byte for byte as they stand in its report. With `do` rows or
 * none and the row `end` behind it, it is a day text. The date is YYYY-MM-DD, in so many bytes, and later than the day.
 * A fault of the day text is told before that of the date. */
struct registry_answer registry_next(const char *day, size_t day_length, const char *date, size_t date_length,
                                     char *room, size_t room_length);

/* The determined compliance figures of all accounts after the day, as `registry figures`. */
struct registry_answer registry_figures(const char *day, size_t day_length, char *room, size_t room_length);

/* What all accounts together hold, have surrendered and have deleted after the day, as `registry totals`. */
struct registry_answer registry_totals(const char *day, size_t day_length, char *room, size_t room_length);

/* Where the first fault of these bytes stands. Status, cause and row are those that the calls above tell. The field is
 * looked for a second time, in this row alone: that it is the right one was tested, and not proved. */
struct registry_place registry_find_fault(const char *day, size_t day_length);

/* The words of the texts, so that no caller needs a table of its own. Each is always done, takes no memory, and writes
 * into the room as the calls above do. A number that names nothing has the empty text. */

/* The version of the engine, such as 1.2, as `registry --version` tells it. */
struct registry_answer registry_version_string(char *room, size_t room_length);

/* The word of a cause (enum registry_cause), as the program writes it: `order`. At most 7 bytes. */
struct registry_answer registry_cause_word(uint32_t cause, char *room, size_t room_length);

/* The name of the check with this code, as a log has it behind `refused,CODE`: `NotEnough`. It has at most
 * 23 bytes. */
struct registry_answer registry_refusal_word(uint32_t code, char *room, size_t room_length);

/* Why the check with this code refuses an instruction, in an English sentence. It names no account and no amount. */
struct registry_answer registry_refusal_sentence(uint32_t code, char *room, size_t room_length);

/* The name of a column (column of struct registry_place), as docs/FORMATS.md has it: `PROPOSED`. At most 11 bytes. */
struct registry_answer registry_field_name(uint32_t column, char *room, size_t room_length);

/* What is wrong by this cause in this column, in an English sentence: what is wanted there. A column that there is not,
 * such as 0, stands for the row as a whole. At most 128 bytes. */
struct registry_answer registry_fault_sentence(uint32_t cause, uint32_t column, char *room, size_t room_length);

/* The version of the library's interface, to be compared with REGISTRY_VERSION. */
uint32_t registry_version(void);

#ifdef __cplusplus
}
#endif

#endif
