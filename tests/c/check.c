/* Checks sheets and table files from C: some that are accepted, and some that are refused. */
#include <string.h>

#include "expect.h"
#include "wizbratel.h"

/* A text without its closing zero. */
static void sheet(const char *text, int wanted) {
    expect(text, wizbratel_check_sheet((const uint8_t *)text, strlen(text)), wanted);
}

/* A sheet for each answer but 1 and 2, which `lengths` tries. */
static void sheets(void) {
    sheet("act a;proc X=a.X;init X;", 0);
    sheet("sort D 2;act in:D;act out:D;proc B=sum(d:D,in(d).out(d).B);init B;", 0);
    sheet("act 00;proc X=a;init X;", 3);
    sheet("act a;proc X=(((((((((((((((((a)))))))))))))))));init X;", 4);
    sheet("act a;proc X=a.X;init X", 5);
    sheet("sort D 17;proc X=tau;init X;", 6);
    sheet("act a;proc X=b;init X;", 7);
    sheet("act a:Bool;proc X=a(2);init X;", 8);
    sheet("act a;proc X=X<|0|>a;init X;", 9);
    sheet("act a;proc X=a.X.X.X.X.X.X.X.X.X;init X;", 10);
}

/* `act a;proc X=a.X;init X;` with blanks behind it, to this many of the 4,097 bytes. */
static void lengths(void) {
    static uint8_t bytes[4097];
    memset(bytes, ' ', sizeof bytes);
    memcpy(bytes, "act a;proc X=a.X;init X;", 24);
    expect("no bytes of a sheet", wizbratel_check_sheet(bytes, 0), 5);
    expect("4,096 bytes", wizbratel_check_sheet(bytes, 4096), 0);
    expect("4,097 bytes", wizbratel_check_sheet(bytes, 4097), 1);
    bytes[4095] = 0;
    expect("a zero", wizbratel_check_sheet(bytes, 4096), 2);
    expect("a zero behind the sheet", wizbratel_check_sheet(bytes, 4095), 0);
}

/* 16 brackets deep everywhere: the deepest that the stack has to hold. */
static void deepest(void) {
    static const char part[] = "+((((((((((((((((a))))))))))))))))";
    static char text[4096] = "act a;proc X=a";
    for (int i = 0; i < 115; i++)
        strcat(text, part);
    strcat(text, ";init X;");
    expect("deepest", wizbratel_check_sheet((const uint8_t *)text, strlen(text)), 0);
}

/* The file of document 01's worked sheet, `act a;proc X=a.X;init X;`: one block. Its stream names Bool, or is of the
 * earlier layout; the zero that ends each is its last byte. */
static void worked(uint8_t file[512], int named) {
    static const uint8_t names[] = "\xF2\1\2\4Bool\0\1\1a\0\1\0\1\0\0\0\1\0";
    static const uint8_t earlier[] = "\1\2\0\1\1a\0\1\0\1\0\0\0\1\0";
    memset(file, 0, 512);
    file[2] = 1;
    memcpy(file + 4, named ? names : earlier, named ? sizeof names : sizeof earlier);
    file[510] = named ? 0x73 : 0xAC;
    file[511] = named ? 0x9F : 0x85;
}

static void tables(void) {
    static uint8_t zeros[512], file[512];
    expect("nothing", wizbratel_check_table(zeros, 0), 12);
    expect("zeros", wizbratel_check_table(zeros, 512), 13);
    worked(file, 0);
    expect("the worked file of the earlier layout", wizbratel_check_table(file, 512), 0);
    worked(file, 1);
    expect("the worked file", wizbratel_check_table(file, 512), 0);
    file[510] = 0x9F;
    file[511] = 0x73;
    expect("the check low byte first", wizbratel_check_table(file, 512), 13);
    worked(file, 1);
    file[6] = 3; /* the size of Bool */
    file[510] = 0xB5;
    file[511] = 0x25;
    expect("no table", wizbratel_check_table(file, 512), 14);
}

/* No bytes at all: the pointer leads nowhere. */
static void nothing(void) {
    size_t written = 7, depth = 7;
    wizbratel_answer answer;
    memset(&answer, 7, sizeof answer);
    expect("no sheet", wizbratel_check_sheet(NULL, 0), 5);
    expect("no sheet, no output", wizbratel_make_table(NULL, 0, NULL, 0, &written), 5);
    expect("no file", wizbratel_check_table(NULL, 0), 12);
    expect("no file, no frames", wizbratel_start(NULL, 0, NULL, 0, &depth), 12);
    expect("no file, no frames", wizbratel_ask(NULL, 0, NULL, 0, &depth, 0, &answer), 12);
    expect("no file, nothing", wizbratel_ask_all(NULL, 0, NULL, 0, &depth, NULL, 0, NULL, 0), 12);
    static uint8_t file[512];
    worked(file, 1);
    expect("no frames", wizbratel_start(file, 512, NULL, 0, &depth), 15);
    expect("no frames", wizbratel_ask(file, 512, NULL, 0, &depth, 0, &answer), 15);
    expect("no frames", wizbratel_ask_all(file, 512, NULL, 0, &depth, NULL, 0, NULL, 0), 15);
    static wizbratel_frame frames[WIZBRATEL_FRAMES];
    depth = 1;
    expect("no questions", wizbratel_ask_all(file, 512, frames, WIZBRATEL_FRAMES, &depth, NULL, 0, NULL, 0), 0);
    expect("written, depth", (long)(written + depth), 8);
    expect("answer", answer.kind, 7);
}

int main(void) {
    sheets();
    lengths();
    deepest();
    tables();
    nothing();
    return failed;
}
