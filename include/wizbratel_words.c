/* The questions in words, as the Rust crate has them (bindings/rust/src/questions.rs; a test holds them together). */
#include "wizbratel_words.h"
#include "wizbratel.h"

/* Question 1 first. */
static const char *const questions[] = {
    "at most 4,096 bytes in the sheet?",
    "no bytes but printable ASCII, blanks and line feeds?",
    "all of the text tokens: names of at most 16 characters that begin with a letter, numerals up to 255 without "
    "leading zeros, the marks ( ) , ; : # = + . -> <| |> ! == /\\ \\/?",
    "never more than 16 round brackets open?",
    "the form of a sheet: lines sort, func, act, proc and init in this order, each closed by a semicolon, at least "
    "one proc, just one init?",
    "at most 8 sorts with Bool, sizes 1 to 16, 16 functions, 32 actions, 16 processes, 4 parameters a process?",
    "every declared name new, each variable unlike all declared names and all variables in scope, each used name of "
    "the kind that its place needs?",
    "argument counts and sorts right, conditions Bool, the sides of == of one sort and not two numerals, numerals "
    "below their sort's size, function values complete and in range?",
    "no process that comes back to itself through first parts alone, without an action before it?",
    "the table within its limits: 64 equations of 4 parameters, 255 summands, for each 4 sum variables, 8 conditions "
    "and 8 calls, 31 nodes a data term, 64,768 bytes in all?",
    "room for the whole table file, or the whole printed text, in the lent output?",
    "512 to 65,536 bytes in the table file, in whole blocks of 512?",
    "number, block count and check of each block right?",
    "the stream of a table in the blocks, rightly sorted, within all limits, in the fewest blocks, zeros behind it?",
    "a stack of this table: 64 frames lent, each used one an equation with values in its sorts, zeros in all that is "
    "not used?",
    "at most 64 frames after the step?",
    "the printed text a sheet by questions 1 to 8: at most 4,096 bytes, names of at most 16 characters, at most 16 "
    "round brackets open, at most 16 equations, no sort with an action's name, no == over two values?",
};

const char *wizbratel_question(uint8_t number) {
    if (number < 1 || number > sizeof questions / sizeof *questions)
        return "";
    return questions[number - 1];
}

const char *wizbratel_version(void) { return WIZBRATEL_VERSION; }
