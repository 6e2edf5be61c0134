/* Wizbratel: the questions in words, and the version of the library that is linked.
 *
 * These are plain C (wizbratel_words.c) and not proved: no answer about a sheet, a table or a stack rests on them. The
 * proved functions stand in wizbratel.h. Both are in libwizbratel.so; the archives are libwizbratel_words.a and
 * libwizbratel.a. */
#ifndef WIZBRATEL_WORDS_H
#define WIZBRATEL_WORDS_H

#include <stdint.h>

#ifdef __cplusplus
extern "C" {
#endif

/* What a question asks, 1 to 17, as one line of ASCII; for all other numbers, 0 among them, no characters. Never NULL:
 *
 *     uint8_t refused = wizbratel_check_sheet(sheet, length);
 *     if (refused != 0)
 *         fprintf(stderr, "refused by question %u: %s\n", (unsigned)refused, wizbratel_question(refused)); */
const char *wizbratel_question(uint8_t number);

/* The version of the library: WIZBRATEL_VERSION as it was when this was compiled. */
const char *wizbratel_version(void);

#ifdef __cplusplus
}
#endif

#endif
