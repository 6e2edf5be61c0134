/* Wizbratel: linear tables from pCRL process sheets, and steps through them.
 *
 *     sheet   a text that says what a process may do            wizbratel_check_sheet, wizbratel_make_table, wizbratel_walk
 *     table   the file that is made of it, 512 to 65,536 bytes  wizbratel_check_table, wizbratel_print_table
 *     stack   64 frames and a depth: where the process stands   wizbratel_start, wizbratel_ask, wizbratel_ask_all
 *
 * Answer      0, or the number of the first question that fails: see WIZBRATEL_Q_* below; of wizbratel_walk a length.
 * Refusal     After an answer other than 0 every byte, frame and count that was lent is as it was.
 * Input       Any bytes whatever, of any length. Every call returns; none allocates, reads a file or prints.
 * Pointers    A pointer leads to as many elements as the length beside it says. With length 0 it may be
 *             NULL. `written`, `depth` and `answer` are never NULL. What a function writes overlaps
 *             nothing else that it is lent, and no other thread writes what is lent during the call.
 * Threads     There is no state: any number of threads may call at once.
 * Times       On one core of a server, the least of many calls, as the older kit compiled it. They are measured, not
 *             proved, and so is the stack of sheets; that of tables is added up from the machine code.
 * Linking     libwizbratel.a, for x86-64 Linux; it needs memcpy and memset and nothing else. wizbratel_words.h has the
 *             questions in words. */
#ifndef WIZBRATEL_H
#define WIZBRATEL_H

#include <stddef.h>
#include <stdint.h>

#ifdef __cplusplus
extern "C" {
#endif

#define WIZBRATEL_VERSION "0.2.0"
#define WIZBRATEL_VERSION_MAJOR 0
#define WIZBRATEL_VERSION_MINOR 2
#define WIZBRATEL_VERSION_PATCH 0

/* The longest sheet, and the longest table file: an output of WIZBRATEL_MAX_FILE bytes is never too short for a table,
 * one of WIZBRATEL_MAX_SHEET bytes never for a printed sheet. */
#define WIZBRATEL_MAX_SHEET 4096
#define WIZBRATEL_MAX_FILE 65536

/* The longest text of a walk. */
#define WIZBRATEL_MAX_WALK 238

/* Frames of a stack. */
#define WIZBRATEL_FRAMES 64

/* Bytes of the machine's stack that a thread wants, for pthread_attr_setstacksize. "Stack" below is what a function
 * itself takes; the rest, 48 KiB or more, is for what the C library, the first call of a shared library and a signal
 * take there. */
#define WIZBRATEL_STACK_SHEETS 196608 /* 192 KiB: check_sheet, make_table */
#define WIZBRATEL_STACK_WALK 327680   /* 320 KiB: walk */
#define WIZBRATEL_STACK_TABLES 131072 /* 128 KiB: all others */

/* The questions, in the order in which they are put, but for 17. A function answers the number of the first one that
 * has to be answered with no. */

/* Of a sheet: */
#define WIZBRATEL_Q_TOO_LONG 1     /* Has it at most 4,096 bytes? */
#define WIZBRATEL_Q_BYTE 2         /* Is each byte printable ASCII (20 to 7E hex) or a line feed? No tabs, no CR. */
#define WIZBRATEL_Q_TOKEN 3        /* Is all of it names (to 16 characters), numerals (to 255) and marks? */
#define WIZBRATEL_Q_BRACKETS 4     /* Are never more than 16 round brackets open? */
#define WIZBRATEL_Q_FORM 5         /* Is its form right: sort, func, act, proc, init lines, each closed by `;`? */
#define WIZBRATEL_Q_COUNT 6        /* At most 8 sorts of size 1 to 16, 16 func, 32 act, 16 proc, 4 parameters? */
#define WIZBRATEL_Q_NAME 7         /* Is each declared name new, each used name of the kind its place needs? */
#define WIZBRATEL_Q_SORT 8         /* Are argument counts, sorts, numerals and function values right? */
#define WIZBRATEL_Q_CIRCLE 9       /* Does no process come back to itself at the head, before any action? */
#define WIZBRATEL_Q_TABLE_LIMIT 10 /* Is its table within its limits (64 equations, 255 summands, ..)? */

/* Of the output that is lent for the table, or for its printed sheet: */
#define WIZBRATEL_Q_NO_ROOM 11 /* Is it long enough? */

/* Of a table file: */
#define WIZBRATEL_Q_FILE_LENGTH 12 /* Is it 512 to 65,536 bytes long, a multiple of 512? */
#define WIZBRATEL_Q_BLOCK 13       /* Are each block's number, block count and check right? */
#define WIZBRATEL_Q_STREAM 14      /* Do the blocks hold a right table, within all limits, and zeros behind it? Its
                                    * stream names its sorts (it begins with hex F2), or is of the earlier layout. */

/* Of a stack: */
#define WIZBRATEL_Q_FRAMES 15   /* 64 frames, depth 0 to 64, used frames right for this table, all else zero? */
#define WIZBRATEL_Q_TOO_DEEP 16 /* Are there at most 64 frames after the step? */

/* Of a table that is printed, after 14 and before 11: */
#define WIZBRATEL_Q_PRINTED 17 /* Does its text pass 1 to 8? Tables of more than 16 equations never do, nor those in
                                * which a sort has an action's name. */

/* A frame: an equation and the values of its parameters, spare ones 0. Of the lent frames the first
 * `depth` are used, the top one last; the others are zero. */
typedef struct {
    uint8_t equation;
    uint8_t values[4];
} wizbratel_frame;

/* The name of a sort, 20 bytes. In a table of the earlier layout a sort but Bool is called by the letter s, repeated until
 * no action's name begins with that run, and its number: up to 18 characters. */
typedef struct {
    uint8_t length; /* byte 0: 1 to 18; 0 where there is no sort */
    char name[19];  /* bytes 1 to 19: zeros behind the name, so it is a C string */
} wizbratel_sort;

/* A label, 61 bytes: the action's name, its sorts and its values. Two labels are the same exactly if all their bytes
 * are. For tau the name is "tau", which no action has; it has no values. */
typedef struct {
    uint8_t value_count;     /* byte 0: how many values and sorts there are, 0 to 2 */
    uint8_t values[2];       /* bytes 1 and 2: the values, 0 where there is none */
    uint8_t name_length;     /* byte 3: 1 to 16 */
    char name[17];           /* bytes 4 to 20: zeros behind the name, so it is a C string */
    wizbratel_sort sorts[2]; /* bytes 21 to 40 and 41 to 60: the sort of each value, zeros where there is none */
} wizbratel_label;

/* What is answered to a step question. */
#define WIZBRATEL_ENDED 0     /* the stack is empty */
#define WIZBRATEL_NONE 1      /* the stack has no step k */
#define WIZBRATEL_STEP 2      /* step k was taken */
#define WIZBRATEL_TOO_DEEP 16 /* in a list only: step k exists, and its next stack has more than 64 frames */

/* An answer, 72 bytes. The fields behind `kind` are those of a step; for the other kinds they are 0. */
typedef struct {
    uint8_t kind;                /* byte 0: one of the four above */
    uint8_t depth;               /* byte 1: of the stack after the step */
    wizbratel_label label;       /* bytes 2 to 62: of the step */
    uint8_t reserved;            /* byte 63: 0 */
    uint64_t reserved_for_count; /* bytes 64 to 71: 0; a later version says there how many steps the stack has */
} wizbratel_answer;

/* Check a sheet.
 *
 * Answers  0 if its table can be made, else 1 to 10. No bytes at all: 5.
 * Leaves   Nothing is written.
 * Time     Not more than make_table.
 * Stack    At most 128 KiB; usual sheets 17 to 109 KB. */
uint8_t wizbratel_check_sheet(const uint8_t *sheet, size_t length);

/* Make the table file of a sheet.
 *
 * Answers  0, or 1 to 10 for the sheet, or 11 if the file is longer than `room` bytes. A good sheet with
 *          no output (`out` NULL, `room` 0) gets 11.
 * Leaves   After 0 the file over the front of `out` and its length in `*written`; what is behind it in
 *          `out` is untouched. One sheet gives the same bytes every time.
 * Time     0.8 us for 25 bytes, 9 us for 500, 0.1 ms for 4,096; the dearest sheets found 0.3 ms.
 * Stack    At most 128 KiB; usual sheets 17 to 109 KB. */
uint8_t wizbratel_make_table(const uint8_t *sheet, size_t length, uint8_t *out, size_t room, size_t *written);

/* Walk: step 0 up to 8 times, as text: a line for each step (its number, the label, the depth after it), then
 * "ended", "more" or "stuck"; or "refused" and the number of the question that the sheet fails.
 *
 * Answers  How many bytes were written: all of the text if `room` is WIZBRATEL_MAX_WALK or more.
 * Leaves   The text over the front of `out`, as far as there is room, not ended by a zero; what is behind it is
 *          untouched.
 * Time     As make_table, check_table and 8 questions of a list: 1.6 us for 25 bytes.
 * Stack    131 KB more than make_table. */
size_t wizbratel_walk(const uint8_t *sheet, size_t length, uint8_t *out, size_t room);

/* Check a table file.
 *
 * Answers  0 if it is exactly a file that could have been made of a right table, else 12 to 14. No bytes: 12.
 * Leaves   Nothing is written.
 * Time     0.2 to 0.5 us for 512 bytes; 0.2 ms for 65,536 made of a sheet, 0.5 ms for as many of random terms.
 * Stack    3 KB for a file of 512 bytes; at most 69 KB. */
uint8_t wizbratel_check_table(const uint8_t *file, size_t length);

/* Print a table file as a sheet: sorts and actions keep their names, functions, processes and variables are named by
 * the letters f, p and v and a number, each equation is a process, and line feeds there are none. The sorts of a table
 * of the earlier layout are named by the letter s and a number.
 *
 * Answers  0, or 12 to 14 for the file, or 17 if the text is no sheet by questions 1 to 8, or 11 if the text is longer
 *          than `room` bytes. 17 comes before 11. A good table with no output (`out` NULL, `room` 0) gets 11 or 17.
 * Leaves   After 0 the text over the front of `out`, not ended by a zero, and its length in `*written`; what is behind
 *          it in `out` is untouched. make_table makes exactly `table` of the text; of the text of a table of the earlier
 *          layout it makes the same table with these names.
 * Time     0.5 us for the shortest table, 28 us for a text of 4,096 bytes; 0.6 ms for 65,536 bytes, 1.6 ms
 *          for as many of random terms, both refused by 17.
 * Stack    At most 81 KB. */
uint8_t wizbratel_print_table(const uint8_t *table, size_t length, uint8_t *out, size_t room, size_t *written);

/* Start a stack.
 *
 * Answers  0, or 12 to 14 for the file, or 15 if `count` is not 64. What the frames and `*depth` held does
 *          not matter.
 * Leaves   After 0 the table's start in the first frame, zeros in the others, and 1 in `*depth`.
 * Time     As check_table, and half a microsecond.
 * Stack    5 KB for a file of 512 bytes; at most 70 KB. */
uint8_t wizbratel_start(const uint8_t *file, size_t length, wizbratel_frame *frames, size_t count, size_t *depth);

/* Ask for step k, from 0, and take it.
 *
 * Answers  0, or 12 to 14 for the file, 15 for the frames and the depth, 16 if the step exists and the stack
 *          would get too deep. Too large a k is no refusal: the kind is then WIZBRATEL_NONE.
 * Leaves   After 0 `*answer`, all of it. If its kind is WIZBRATEL_STEP the frames hold the new stack, zeros
 *          behind it, and `*depth` is its depth; after ENDED and NONE they are as they were.
 * Time     The file is checked at each call: 0.6 us with 512 bytes, 0.2 to 0.5 ms with 65,536. Then the steps
 *          before k are counted: 0.04 to 0.2 us for usual tables. The dearest table found, 230 summands with four
 *          sums of 16 values and eight long conditions, each on all of them, takes 1 s if k is too large. So
 *          look at a table of unknown origin in a thread that may wait.
 * Stack    9 KB for a file of 512 bytes; at most 74 KB. */
uint8_t wizbratel_ask(const uint8_t *file, size_t length, wizbratel_frame *frames, size_t count, size_t *depth, uint64_t k,
                      wizbratel_answer *answer);

/* Ask a list: each question in turn, on the frames and the depth that the one before it left. The fast way to
 * take many steps, since the file is checked once.
 *
 * Answers  0, or 12 to 14 for the file, 15 for the frames and the depth. Never 16: such a question is answered
 *          WIZBRATEL_TOO_DEEP, leaves the stack as it was, and the list goes on.
 * Leaves   After 0 an answer for each question that was put, and the frames and `*depth` after the last one.
 *          `bytes` is the size of `answers` in bytes: as many questions are put as there is room for whole
 *          answers, and what is behind the last answer is untouched. With no questions, or no room, the
 *          stack is only checked.
 * Time     As check_table once, then 0.04 to 0.2 us a question for usual tables; at the worst as ask.
 * Stack    9 KB for a file of 512 bytes; at most 74 KB. */
uint8_t wizbratel_ask_all(const uint8_t *file, size_t length, wizbratel_frame *frames, size_t count, size_t *depth,
                          const uint64_t *questions, size_t question_count, wizbratel_answer *answers, size_t bytes);

#ifdef __cplusplus
}
#endif

#endif
