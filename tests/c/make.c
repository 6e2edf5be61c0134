/* Makes tables from C: document 01's worked sheet byte for byte, too short an output, refused sheets, the longest file. */
#include <string.h>

#include "expect.h"
#include "wizbratel.h"

enum { SIDE = 16, CANARY = 0xC5 };

/* An output between canaries. */
static uint8_t lent[SIDE + WIZBRATEL_MAX_FILE + SIDE];
static uint8_t *const out = lent + SIDE;
static size_t written;

static uint8_t make(const char *sheet, size_t room) {
    memset(lent, CANARY, sizeof lent);
    written = 12345;
    return wizbratel_make_table((const uint8_t *)sheet, strlen(sheet), out, room, &written);
}

/* Bytes from here to there that are no longer canaries. */
static long changed(size_t from, size_t to) {
    long count = 0;
    for (size_t i = from; i < to; i++)
        count += lent[i] != CANARY;
    return count;
}

static const char worked[] = "act a;proc X=a.X;init X;";

/* One block: number 0 of 1, the stream, zeros, the check. */
static void worked_sheet(void) {
    /* the zero that ends it is the stream's last byte */
    static const uint8_t stream[] = "\xF2\1\2\4Bool\0\1\1a\0\1\0\1\0\0\0\1\0";
    static uint8_t wanted[512];
    wanted[2] = 1;
    memcpy(wanted + 4, stream, sizeof stream);
    wanted[510] = 0x73;
    wanted[511] = 0x9F;
    expect("the worked sheet", make(worked, WIZBRATEL_MAX_FILE), 0);
    expect("its length", (long)written, 512);
    expect("its file", memcmp(out, wanted, 512), 0);
    expect("bytes around it", changed(0, SIDE) + changed(SIDE + 512, sizeof lent), 0);
    expect("the file checked", wizbratel_check_table(out, written), 0);
    expect("room for exactly one block", make(worked, 512), 0);
    expect("bytes around it", changed(0, SIDE) + changed(SIDE + 512, sizeof lent), 0);
}

/* A refusal, after which everything lent is as it was. */
static void refuses(const char *sheet, size_t room, int wanted) {
    expect(sheet, make(sheet, room), wanted);
    expect("its length", (long)written, 12345);
    expect("its bytes", changed(0, sizeof lent), 0);
}

static void refused(void) {
    refuses(worked, 0, 11);
    refuses(worked, 511, 11);
    refuses("", 512, 5);
    refuses("act a;proc X=a.X;init X", 512, 5);
    refuses("sort D 17;proc X=tau;init X;", 512, 6);
    refuses("act a;proc X=X.a;init X;", 0, 9);
    refuses("act a;proc X=a.X.X.X.X.X.X.X.X.X;init X;", 0, 10);
}

/* 255 summands of some hundred bytes each, through calls at the head. */
static void many_blocks(void) {
    static char sheet[WIZBRATEL_MAX_SHEET] =
        "func g:Bool#Bool->Bool=0,1,1,0;act a;proc Z(p:Bool,q:Bool)=delta;"
        "proc W(v:Bool)=a.Z(g(g(v,v),g(v,v)),g(v,v)).Z(g(v,v),g(g(v,v),g(v,v)));proc X(v:Bool)=W(v)";
    for (int i = 0; i < 200; i++)
        strcat(sheet, "+W(v)");
    strcat(sheet, ";init X(1);");
    expect("a long file", make(sheet, WIZBRATEL_MAX_FILE), 0);
    expect("in whole blocks", (long)(written % 512), 0);
    expect("more than ten of them", written > 10 * 512, 1);
    expect("bytes around it", changed(0, SIDE) + changed(SIDE + written, sizeof lent), 0);
    expect("checked", wizbratel_check_table(out, written), 0);
    size_t length = written;
    refuses(sheet, length - 1, 11);
    expect("room for exactly its blocks", make(sheet, length), 0);
}

/* The walk is document 01's text, cut where there is no room. */
static void walked(void) {
    static const char sheet[] = "act a;act b;proc X=a.b;init X;", text[] = "1 a 1\n2 b 0\nended\n";
    uint8_t walk[WIZBRATEL_MAX_WALK];
    size_t length = wizbratel_walk((const uint8_t *)sheet, strlen(sheet), walk, sizeof walk);
    expect("a walk", (long)length, (long)strlen(text));
    expect("its text", memcmp(walk, text, length), 0);
    expect("a walk cut", (long)wizbratel_walk((const uint8_t *)sheet, strlen(sheet), walk, 3), 3);
    expect("a walk with no room", (long)wizbratel_walk((const uint8_t *)sheet, strlen(sheet), NULL, 0), 0);
}

int main(void) {
    worked_sheet();
    walked();
    refused();
    many_blocks();
    return failed;
}
