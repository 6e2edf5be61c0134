/* Prints tables from C: a table and its text in turn, a table of the earlier layout, too short an output, refused files
 * and tables. */
#include <string.h>

#include "expect.h"
#include "wizbratel.h"

enum { SIDE = 16, CANARY = 0xC5 };

static uint8_t file[WIZBRATEL_MAX_FILE], again[WIZBRATEL_MAX_FILE];
static size_t length;

/* An output between canaries. */
static uint8_t lent[SIDE + WIZBRATEL_MAX_SHEET + SIDE];
static uint8_t *const out = lent + SIDE;
static size_t written;

static void make(const char *sheet) {
    expect(sheet, wizbratel_make_table((const uint8_t *)sheet, strlen(sheet), file, sizeof file, &length), 0);
}

/* Prints the file, and looks at the canaries on both sides of the output and behind the text. */
static uint8_t print(size_t room) {
    memset(lent, CANARY, sizeof lent);
    written = 12345;
    uint8_t refused = wizbratel_print_table(file, length, out, room, &written);
    size_t end = SIDE + (refused ? 0 : written);
    long changed = 0;
    for (size_t i = 0; i < sizeof lent; i++)
        changed += (i < SIDE || i >= end) && lent[i] != CANARY;
    expect("bytes around the text", changed, 0);
    if (refused)
        expect("the length after a refusal", (long)written, 12345);
    return refused;
}

/* The file is printed so; the text is made a table again. */
static void printed(const char *text) {
    expect("printed", print(WIZBRATEL_MAX_SHEET), 0);
    expect("its length", (long)written, (long)strlen(text));
    expect(text, memcmp(out, text, strlen(text)), 0);
    size_t again_length = 0;
    expect("read back", wizbratel_make_table(out, written, again, sizeof again, &again_length), 0);
    expect("as long", (long)again_length, (long)length);
}

/* A sheet's table is printed so, in just as many bytes, and the text gives the same file. */
static void prints(const char *sheet, const char *text) {
    make(sheet);
    printed(text);
    expect("the same file", memcmp(file, again, length), 0);
    expect("just enough room", print(strlen(text)), 0);
    expect("a byte too little", print(strlen(text) - 1), WIZBRATEL_Q_NO_ROOM);
    expect("no room", print(0), WIZBRATEL_Q_NO_ROOM);
}

static void texts(void) {
    prints("act a;proc X=a.X;init X;", "act a;proc p0=a.p0;init p0;");
    prints("sort D 3;act pair:D#D;act s;proc B(b:D)=sum(d:D,pair(b,d).B(d))+s<|1|>tau;init B(1);",
           "sort D 3;act pair:D#D;act s;proc pp0(v0:D)=sum(v1:D,pair(v0,v1).pp0(v1))+s<|1|>delta"
           "+delta<|1|>tau;init pp0(1);");
    prints("sort v 2;act a;proc X(d:Bool)=a.X(d);init X(0);", "sort v 2;act a;proc p0(vv0:Bool)=a.p0(vv0);init p0(0);");
    prints("proc X=delta;init X;", "proc p0=delta;init p0;");
}

/* A table of the earlier layout: its sort is named by a letter and a number, and the text gives the file with names. */
static void earlier(void) {
    /* the zero that ends it is the stream's last byte */
    static const uint8_t stream[] = "\2\2\3\0\1\1a\1\1\1\0\1\0\0\0\2\0";
    memset(file, 0, 512);
    file[2] = 1;
    memcpy(file + 4, stream, sizeof stream);
    file[510] = 0x53;
    file[511] = 0xBC;
    length = 512;
    printed("sort s1 3;act a:s1;proc p0=a(2);init p0;");
    expect("names", memcmp(again + 4, "\xF2\2\2\4Bool\3\2s1\0\1\1a", 16), 0);
}

/* 12, 13 and 14 for the file, 17 for its text, each before 11. */
static void refused(void) {
    make("act a;proc X=a.a.a.a.a.a.a.a.a+a.a.a.a.a.a.a.a.a;init X;");
    expect("17 equations", print(WIZBRATEL_MAX_SHEET), WIZBRATEL_Q_PRINTED);
    expect("17 equations and no room", print(0), WIZBRATEL_Q_PRINTED);
    file[30] ^= 1;
    expect("a changed byte", print(0), WIZBRATEL_Q_BLOCK);
    length--;
    expect("a byte less", print(0), WIZBRATEL_Q_FILE_LENGTH);
    make("act a;proc X=a.X;init X;");
    file[6] = 3; /* the size of Bool */
    file[510] = 0xB5;
    file[511] = 0x25;
    expect("no table", print(0), WIZBRATEL_Q_STREAM);
}

int main(void) {
    texts();
    earlier();
    refused();
    return failed;
}
