/* The questions in words, and the version. */
#include <string.h>

#include "expect.h"
#include "wizbratel.h"
#include "wizbratel_words.h"

int main(void) {
    for (int number = 0; number < 256; number++) {
        const char *words = wizbratel_question((uint8_t)number);
        size_t length = strlen(words);
        if (number < WIZBRATEL_Q_TOO_LONG || number > WIZBRATEL_Q_PRINTED) {
            expect("no question", (long)length, 0);
            continue;
        }
        expect("some words", length > 30 && words[length - 1] == '?', 1);
        for (int other = 1; other < number; other++)
            expect("its own words", strcmp(words, wizbratel_question((uint8_t)other)) == 0, 0);
    }
    expect("the last one", strncmp(wizbratel_question(WIZBRATEL_Q_PRINTED), "the printed text a sheet", 24), 0);
    expect("the version", strcmp(wizbratel_version(), WIZBRATEL_VERSION), 0);
    return failed;
}
