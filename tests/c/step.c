/* Steps from C: makes a table, starts, asks one question after another, asks a list; the sorts of labels; broken frames
 * and full stacks. */
#include <string.h>

#include "expect.h"
#include "wizbratel.h"

static uint8_t file[WIZBRATEL_MAX_FILE];
static size_t length;
static wizbratel_frame frames[WIZBRATEL_FRAMES];
static size_t depth;

static void make(const char *sheet) {
    expect(sheet, wizbratel_make_table((const uint8_t *)sheet, strlen(sheet), file, sizeof file, &length), 0);
    memset(frames, 9, sizeof frames);
    depth = 99;
    expect("start", wizbratel_start(file, length, frames, WIZBRATEL_FRAMES, &depth), 0);
    expect("depth at the start", (long)depth, 1);
}

/* The sum of all bytes from this frame on: 0 if they are zero. */
static long rest(size_t from) {
    const uint8_t *bytes = (const uint8_t *)(frames + from);
    long sum = 0;
    for (size_t i = 0; i < sizeof frames - from * sizeof *frames; i++)
        sum += bytes[i];
    return sum;
}

/* Whether a name has this length, and zeros behind it. */
static int clean(const char *name, size_t room, size_t length) {
    size_t end = length;
    while (end < room && !name[end])
        end++;
    return end == room && strlen(name) == length;
}

/* An answer in words: the label, each value with its sort, and the depth after it. */
static const char *shown(const wizbratel_answer *answer) {
    static char text[128];
    const wizbratel_label *label = &answer->label;
    if (answer->kind == WIZBRATEL_ENDED || answer->kind == WIZBRATEL_NONE || answer->kind == WIZBRATEL_TOO_DEEP) {
        static wizbratel_answer zero;
        const char *word = answer->kind == WIZBRATEL_ENDED ? "ended" : answer->kind == WIZBRATEL_NONE ? "none" : "16";
        int zeros = !memcmp((const char *)answer + 1, (const char *)&zero + 1, sizeof zero - 1);
        return zeros ? word : "fields that are not zero";
    }
    int at = sprintf(text, "%s", label->name), right = !answer->reserved && !answer->reserved_for_count;
    for (int i = 0; i < label->value_count; i++)
        at += sprintf(text + at, "%c%s:%d", i ? ',' : '(', label->sorts[i].name, label->values[i]);
    sprintf(text + at, "%s %d", label->value_count ? ")" : "", answer->depth);
    for (int i = 0; i < 2; i++) {
        right &= clean(label->sorts[i].name, sizeof label->sorts[i].name, label->sorts[i].length);
        right &= i < label->value_count ? label->sorts[i].length > 0 : !label->sorts[i].length && !label->values[i];
    }
    return right && clean(label->name, sizeof label->name, label->name_length) ? text : "other bytes behind a name";
}

static void says(const char *what, const wizbratel_answer *answer, const char *wanted) {
    const char *text = shown(answer);
    if (strcmp(text, wanted)) {
        printf("%s: %s instead of %s\n", what, text, wanted);
        failed = 1;
    }
}

static void asks(uint64_t k, const char *wanted) {
    wizbratel_answer answer;
    memset(&answer, 0xC5, sizeof answer);
    expect("asked", wizbratel_ask(file, length, frames, WIZBRATEL_FRAMES, &depth, k, &answer), 0);
    says("asked", &answer, wanted);
    expect("zeros behind the stack", rest(depth), 0);
}

/* One question after another. */
static void one_by_one(void) {
    make("sort D 3;act in:D;act pair:D#D;proc B(b:D)=sum(d:D,in(d).pair(b,d).B(d))+tau;init B(1);");
    asks(4, "none");
    asks(2, "in(D:2) 2");
    asks(0, "pair(D:1,D:2) 1");
    expect("the equation", frames[0].equation, 0);
    expect("its value", frames[0].values[0], 2);
    asks(3, "tau 0");
    asks(0, "ended");
    expect("the depth", (long)depth, 0);
}

/* The same questions as a list, and as many as there is room for. */
static void lists(void) {
    static const uint64_t questions[] = {4, 2, 0, 3, 0};
    static const char *const wanted[] = {"none", "in(D:2) 2", "pair(D:1,D:2) 1", "tau 0", "ended"};
    wizbratel_answer answers[6];
    for (size_t room = 0; room <= 6; room++) {
        make("sort D 3;act in:D;act pair:D#D;proc B(b:D)=sum(d:D,in(d).pair(b,d).B(d))+tau;init B(1);");
        memset(answers, 0xC5, sizeof answers);
        size_t bytes = room * sizeof *answers;
        expect("a list", wizbratel_ask_all(file, length, frames, WIZBRATEL_FRAMES, &depth, questions, 5, answers, bytes), 0);
        for (size_t i = 0; i < 6; i++) {
            if (i < room && i < 5)
                says("in a list", &answers[i], wanted[i]);
            else
                expect("behind the answers", answers[i].kind, 0xC5);
        }
    }
    expect("the depth after a list", (long)depth, 0);
}

/* A table file of one block with this stream. */
static void file_of(const uint8_t *stream, size_t bytes, uint8_t high, uint8_t low) {
    memset(file, 0, 512);
    file[2] = 1;
    memcpy(file + 4, stream, bytes);
    file[510] = high;
    file[511] = low;
    length = 512;
    expect("a file", wizbratel_start(file, length, frames, WIZBRATEL_FRAMES, &depth), 0);
}

/* Names as long as can be; sorts that only their names tell apart; a table of the earlier layout, whose sort is called s1,
 * and one in which it has 18 characters. */
static void sorts(void) {
    /* the zero that ends each is the last byte of its stream */
    static const uint8_t earlier[] = "\2\2\3\0\1\1a\1\1\1\0\1\0\0\0\2\0";
    static const uint8_t longest[] = "\2\2\3\0\1\20ssssssssssssssss\1\1\1\0\1\0\0\0\2\0";
    make("sort SortOf16_Letters 9;act ActionOf16Letter:SortOf16_Letters#Bool;proc X=ActionOf16Letter(8,1).X;init X;");
    asks(0, "ActionOf16Letter(SortOf16_Letters:8,Bool:1) 1");
    make("act set:Bool;proc X=set(1);init X;");
    asks(0, "set(Bool:1) 0");
    make("sort Channel 2;act set:Channel;proc X=set(1);init X;");
    asks(0, "set(Channel:1) 0");
    file_of(earlier, sizeof earlier, 0x53, 0xBC);
    asks(0, "a(s1:2) 0");
    file_of(longest, sizeof longest, 0xA3, 0xE4);
    asks(0, "ssssssssssssssss(sssssssssssssssss1:2) 0");
}

/* Depth 63 steps to 64; depth 64 gets 16, in a list as an answer. */
static void full(void) {
    static const uint64_t questions[] = {0, 0, 0};
    wizbratel_answer answers[3];
    make("act a;proc X=a.X.X;init X;");
    for (int i = 2; i < 64; i++) {
        char wanted[16];
        sprintf(wanted, "a %d", i);
        asks(0, wanted);
    }
    expect("depth 63", (long)depth, 63);
    expect("a list", wizbratel_ask_all(file, length, frames, WIZBRATEL_FRAMES, &depth, questions, 3, answers, sizeof answers), 0);
    says("to depth 64", &answers[0], "a 64");
    says("at depth 64", &answers[1], "16");
    says("again", &answers[2], "16");
    wizbratel_answer answer;
    memset(&answer, 0xC5, sizeof answer);
    expect("one question", wizbratel_ask(file, length, frames, WIZBRATEL_FRAMES, &depth, 0, &answer), 16);
    expect("its answer untouched", answer.kind, 0xC5);
    expect("the depth", (long)depth, 64);
    asks(1, "none");
}

/* Refusals change nothing. */
static void refused(void) {
    wizbratel_answer answer;
    wizbratel_frame before[WIZBRATEL_FRAMES];
    make("act a;proc X=a.X;init X;");
    memset(&answer, 0xC5, sizeof answer);
    frames[63].values[3] = 1;
    memcpy(before, frames, sizeof frames);
    expect("an unused frame", wizbratel_ask(file, length, frames, WIZBRATEL_FRAMES, &depth, 0, &answer), 15);
    expect("63 frames", wizbratel_ask(file, length, frames, 63, &depth, 0, &answer), 15);
    expect("63 frames", wizbratel_start(file, length, frames, 63, &depth), 15);
    expect("a cut file", wizbratel_start(file, length - 1, frames, WIZBRATEL_FRAMES, &depth), 12);
    file[510] ^= 1;
    expect("a broken file", wizbratel_ask(file, length, frames, WIZBRATEL_FRAMES, &depth, 0, &answer), 13);
    expect("frames", memcmp(before, frames, sizeof frames), 0);
    expect("depth", (long)depth, 1);
    expect("answer", answer.kind, 0xC5);
}

int main(void) {
    expect("bytes of a frame", (long)sizeof(wizbratel_frame), 5);
    expect("bytes of an answer", (long)sizeof(wizbratel_answer), 72);
    one_by_one();
    lists();
    sorts();
    full();
    refused();
    return failed;
}
