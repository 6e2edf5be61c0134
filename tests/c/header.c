/* What the header says of itself: sizes, limits, the version, the numbers of the questions; and lengths of 0 with NULL. */
#include <assert.h>
#include <string.h>

#include "expect.h"
#include "wizbratel.h"

static_assert(sizeof(wizbratel_frame) == 5, "a frame");
static_assert(sizeof(wizbratel_sort) == 20 && offsetof(wizbratel_sort, name) == 1, "a sort's name");
static_assert(sizeof(wizbratel_label) == 61, "a label");
static_assert(offsetof(wizbratel_label, value_count) == 0 && offsetof(wizbratel_label, values) == 1, "its values");
static_assert(offsetof(wizbratel_label, name_length) == 3 && offsetof(wizbratel_label, name) == 4, "its name");
static_assert(offsetof(wizbratel_label, sorts) == 21, "its sorts");
static_assert(sizeof(wizbratel_answer) == 72, "an answer");
static_assert(offsetof(wizbratel_answer, kind) == 0 && offsetof(wizbratel_answer, depth) == 1, "its kind and depth");
static_assert(offsetof(wizbratel_answer, label) == 2 && offsetof(wizbratel_answer, reserved) == 63, "its label");
static_assert(offsetof(wizbratel_answer, reserved_for_count) == 64, "what is reserved for a count");
static_assert(WIZBRATEL_MAX_SHEET == 4096 && WIZBRATEL_MAX_FILE == 65536 && WIZBRATEL_FRAMES == 64, "limits");
static_assert(WIZBRATEL_TOO_DEEP == WIZBRATEL_Q_TOO_DEEP, "16 in a list");

static void version(void) {
    char text[32];
    sprintf(text, "%d.%d.%d", WIZBRATEL_VERSION_MAJOR, WIZBRATEL_VERSION_MINOR, WIZBRATEL_VERSION_PATCH);
    expect("the version", strcmp(text, WIZBRATEL_VERSION), 0);
}

static void numbers(void) {
    static const int questions[] = {
        WIZBRATEL_Q_TOO_LONG, WIZBRATEL_Q_BYTE, WIZBRATEL_Q_TOKEN, WIZBRATEL_Q_BRACKETS,
        WIZBRATEL_Q_FORM, WIZBRATEL_Q_COUNT, WIZBRATEL_Q_NAME, WIZBRATEL_Q_SORT,
        WIZBRATEL_Q_CIRCLE, WIZBRATEL_Q_TABLE_LIMIT, WIZBRATEL_Q_NO_ROOM, WIZBRATEL_Q_FILE_LENGTH,
        WIZBRATEL_Q_BLOCK, WIZBRATEL_Q_STREAM, WIZBRATEL_Q_FRAMES, WIZBRATEL_Q_TOO_DEEP,
        WIZBRATEL_Q_PRINTED,
    };
    for (int i = 0; i < 17; i++)
        expect("a question's number", questions[i], i + 1);
    expect("their count", (long)(sizeof questions / sizeof *questions), 17);
}

/* NULL wherever the length is 0, in each function. */
static void nothing(void) {
    static const char sheet[] = "act a;proc X=a.X;init X;";
    static const uint64_t questions[1] = {0};
    static uint8_t file[WIZBRATEL_MAX_FILE];
    wizbratel_frame frames[WIZBRATEL_FRAMES];
    wizbratel_answer answer;
    size_t length = 7, depth = 7;
    expect("check no sheet", wizbratel_check_sheet(NULL, 0), WIZBRATEL_Q_FORM);
    expect("make of no sheet", wizbratel_make_table(NULL, 0, NULL, 0, &length), WIZBRATEL_Q_FORM);
    expect("make into nothing", wizbratel_make_table((const uint8_t *)sheet, strlen(sheet), NULL, 0, &length), WIZBRATEL_Q_NO_ROOM);
    expect("the length after it", (long)length, 7);
    expect("check no file", wizbratel_check_table(NULL, 0), WIZBRATEL_Q_FILE_LENGTH);
    expect("print no file", wizbratel_print_table(NULL, 0, NULL, 0, &length), WIZBRATEL_Q_FILE_LENGTH);
    expect("the length after it", (long)length, 7);
    expect("start of no file", wizbratel_start(NULL, 0, NULL, 0, &depth), WIZBRATEL_Q_FILE_LENGTH);
    expect("make", wizbratel_make_table((const uint8_t *)sheet, strlen(sheet), file, sizeof file, &length), 0);
    size_t before = length;
    expect("print into nothing", wizbratel_print_table(file, length, NULL, 0, &before), WIZBRATEL_Q_NO_ROOM);
    expect("the length after it", (long)before, (long)length);
    expect("start in no frames", wizbratel_start(file, length, NULL, 0, &depth), WIZBRATEL_Q_FRAMES);
    expect("the depth after it", (long)depth, 7);
    expect("ask on no frames", wizbratel_ask(file, length, NULL, 0, &depth, 0, &answer), WIZBRATEL_Q_FRAMES);
    expect("start", wizbratel_start(file, length, frames, WIZBRATEL_FRAMES, &depth), 0);
    expect("no questions", wizbratel_ask_all(file, length, frames, WIZBRATEL_FRAMES, &depth, NULL, 0, NULL, 0), 0);
    expect("no room", wizbratel_ask_all(file, length, frames, WIZBRATEL_FRAMES, &depth, questions, 1, NULL, 0), 0);
    expect("a list on no frames", wizbratel_ask_all(file, length, NULL, 0, &depth, questions, 1, NULL, 0), WIZBRATEL_Q_FRAMES);
    expect("the depth after them", (long)depth, 1);
}

int main(void) {
    version();
    numbers();
    nothing();
    return failed;
}
