/* Each function in a thread of exactly the size that the header states for it, on the sheet known to take most stack: a
 * thread that is too small kills this test. */
#include <pthread.h>
#include <string.h>

#include "expect.h"
#include "wizbratel.h"

static char sheet[WIZBRATEL_MAX_SHEET];
static size_t sheet_length;
static uint8_t file[WIZBRATEL_MAX_FILE];
static size_t file_length;

static const uint8_t *text(void) { return (const uint8_t *)sheet; }

/* Sixteen processes, each of which calls the next at the head, and so many names that the table has two blocks. */
static void write_sheet(void) {
    static const char parameters[] = "(p:Bool,q:Bool,r:Bool,s:Bool)";
    size_t at = (size_t)sprintf(sheet, "act a;");
    for (int number = 1; number < 32; number++)
        at += (size_t)sprintf(sheet + at, "act a_long_name___%02d;", number);
    for (char name = 'A'; name < 'P'; name++)
        at += (size_t)sprintf(sheet + at, "proc %c%s=%c(p,q,r,s);", name, parameters, name + 1);
    sheet_length = at + (size_t)sprintf(sheet + at, "proc P%s=a.A(p,q,r,s);init A(0,0,0,0);", parameters);
}

static void *make(void *nothing) {
    expect("check", wizbratel_check_sheet(text(), sheet_length), 0);
    expect("make", wizbratel_make_table(text(), sheet_length, file, sizeof file, &file_length), 0);
    return nothing;
}

static void *walk(void *nothing) {
    static uint8_t out[WIZBRATEL_MAX_WALK];
    expect("walk", wizbratel_walk(text(), sheet_length, out, sizeof out) > 50, 1);
    return nothing;
}

/* With more than one block each function takes its long arrays. */
static void *step(void *nothing) {
    static const uint64_t questions[3] = {0, UINT64_MAX, 0};
    wizbratel_frame frames[WIZBRATEL_FRAMES];
    wizbratel_answer answers[3];
    uint8_t out[WIZBRATEL_MAX_SHEET];
    size_t depth, written;
    expect("blocks", file_length > 512, 1);
    expect("check table", wizbratel_check_table(file, file_length), 0);
    expect("print", wizbratel_print_table(file, file_length, out, sizeof out, &written), 0);
    expect("start", wizbratel_start(file, file_length, frames, WIZBRATEL_FRAMES, &depth), 0);
    expect("ask", wizbratel_ask(file, file_length, frames, WIZBRATEL_FRAMES, &depth, 0, answers), 0);
    expect("list", wizbratel_ask_all(file, file_length, frames, WIZBRATEL_FRAMES, &depth, questions, 3, answers, sizeof answers), 0);
    return nothing;
}

static void run(size_t size, void *(*work)(void *)) {
    pthread_attr_t attributes;
    pthread_t thread;
    expect("attributes", pthread_attr_init(&attributes), 0);
    expect("size", pthread_attr_setstacksize(&attributes, size), 0);
    expect("thread", pthread_create(&thread, &attributes, work, NULL), 0);
    expect("its end", pthread_join(thread, NULL), 0);
    pthread_attr_destroy(&attributes);
}

int main(void) {
    write_sheet();
    make(NULL);
    /* the smallest first: glibc keeps the stack of a thread that has ended for the next one that it is large enough for */
    run(WIZBRATEL_STACK_TABLES, step);
    run(WIZBRATEL_STACK_SHEETS, make);
    run(WIZBRATEL_STACK_WALK, walk);
    return failed;
}
