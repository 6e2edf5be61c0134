/* A bench in miniature: makes a table from a sheet, prints the table as a sheet, starts a stack, lists its steps, takes
 * some by number, and puts a list of questions at once.
 *
 *     bench [SHEET] [K ..]
 *
 * SHEET is a file, and does not begin with a digit; without it the sheet below is taken. Each K is the number of a step.
 * Exit status: 0, or 1 if something is refused, or 2 for misuse. Valid C11 and C++17. */
#include <stdio.h>
#include <stdlib.h>
#include <string.h>

#include "wizbratel.h"

enum { LISTED = 12, AT_ONCE = 6 };

static const char buffer[] = "sort D 2; act in: D; act out: D; act stop;\n"
                             "proc Buf = sum(d: D, in(d).out(d).Buf) + stop;\n"
                             "init Buf;\n";

/* One byte more than a sheet may have, so that a longer one is seen. */
static uint8_t sheet[WIZBRATEL_MAX_SHEET + 1];
static uint8_t table[WIZBRATEL_MAX_FILE];
static size_t table_length;

typedef struct {
    wizbratel_frame frames[WIZBRATEL_FRAMES];
    size_t depth;
} stack;

static void must(const char *what, uint8_t refused) {
    if (refused) {
        fprintf(stderr, "%s: refused by question %d\n", what, refused);
        exit(1);
    }
}

static void misuse(const char *what, const char *why) {
    fprintf(stderr, "%s: %s\nusage: bench [SHEET] [K ..]\n", what, why);
    exit(2);
}

static size_t read_sheet(const char *name) {
    FILE *file = fopen(name, "rb");
    size_t length = file ? fread(sheet, 1, sizeof sheet, file) : 0;
    if (!file || ferror(file))
        misuse(name, "cannot be read");
    fclose(file);
    return length;
}

/* Prints the table as a sheet, as a bench can that received only a table. A large table may have none. */
static void print_table(void) {
    static uint8_t text[WIZBRATEL_MAX_SHEET];
    size_t length = 0;
    uint8_t refused = wizbratel_print_table(table, table_length, text, sizeof text, &length);
    if (refused == WIZBRATEL_Q_PRINTED) {
        puts("  none, by question 17");
        return;
    }
    must("table", refused);
    printf("  %.*s\n", (int)length, (const char *)text);
}

/* An answer in a line: the label and the depth after it. */
static void print(const wizbratel_answer *answer) {
    if (answer->kind != WIZBRATEL_STEP) {
        puts(answer->kind == WIZBRATEL_ENDED ? "ended" : answer->kind == WIZBRATEL_NONE ? "no such step" : "too deep");
        return;
    }
    const wizbratel_label *label = &answer->label;
    printf("%s", label->name);
    for (int i = 0; i < label->value_count; i++)
        printf("%c%d", i ? ',' : '(', label->values[i]);
    printf("%s, depth %d\n", label->value_count ? ")" : "", answer->depth);
}

/* Asks for step k, which moves the stack. A step too deep for a stack is answered as a list would answer it. */
static wizbratel_answer ask(stack *s, uint64_t k) {
    wizbratel_answer answer;
    memset(&answer, 0, sizeof answer);
    uint8_t refused = wizbratel_ask(table, table_length, s->frames, WIZBRATEL_FRAMES, &s->depth, k, &answer);
    if (refused == WIZBRATEL_Q_TOO_DEEP)
        answer.kind = WIZBRATEL_TOO_DEEP;
    else
        must("stack", refused);
    return answer;
}

/* Lists the steps: each is asked for on a copy, so that the stack stays where it is. */
static void list(const stack *s) {
    for (uint64_t k = 0; k < LISTED; k++) {
        stack copy = *s;
        wizbratel_answer answer = ask(&copy, k);
        if (answer.kind == WIZBRATEL_NONE || answer.kind == WIZBRATEL_ENDED)
            return;
        printf("  %d: ", (int)k);
        print(&answer);
    }
    puts("  and perhaps more");
}

int main(int count, char **words) {
    int named = count > 1 && strspn(words[1], "0123456789") == 0;
    size_t length = named ? read_sheet(words[1]) : strlen(buffer);
    if (!named)
        memcpy(sheet, buffer, length);
    must("sheet", wizbratel_make_table(sheet, length, table, sizeof table, &table_length));
    printf("a table of %d bytes; as a sheet:\n", (int)table_length);
    print_table();
    puts("steps from the start:");
    stack s;
    must("start", wizbratel_start(table, table_length, s.frames, WIZBRATEL_FRAMES, &s.depth));
    list(&s);

    for (int i = 1 + named; i < count; i++) {
        if (words[i][0] == 0 || words[i][strspn(words[i], "0123456789")])
            misuse(words[i], "is no number of a step");
        wizbratel_answer answer = ask(&s, strtoull(words[i], NULL, 10));
        printf("step %s: ", words[i]);
        print(&answer);
        list(&s);
    }

    /* Many steps at once: the table is checked once, and each question goes on from the stack before it. */
    uint64_t questions[AT_ONCE] = {0};
    wizbratel_answer answers[AT_ONCE];
    must("list", wizbratel_ask_all(table, table_length, s.frames, WIZBRATEL_FRAMES, &s.depth, questions, AT_ONCE, answers,
                                   sizeof answers));
    puts("step 0, six times:");
    for (int i = 0; i < AT_ONCE; i++) {
        printf("  ");
        print(&answers[i]);
    }
    return 0;
}
