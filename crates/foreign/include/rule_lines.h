/*
 * Rule lines for callers in C and C++: the functions of the static library `foreign`.
 *
 * `rt lib` in crates/foreign builds out/libforeign.a. A program is linked against it and against liblibc_c.a of the kit, in the folder c/
 * beside the page that `rt doc` names. docs/RULES.md has the rules themselves.
 *
 * Of every call:
 *
 * - A list is a pointer to its first element and, behind it, how many elements it has. The call reads it, or where the pointer is not const
 *   writes it, until it returns, and keeps nothing: all memory stays the caller's. A buffer that is written overlaps no other list of the call.
 * - No pointer is null, not even that of a list of no elements: there it is any address that is not null. The proofs are of pointers to memory,
 *   and there is no test for null. A compiler that knows `nonnull` refuses a null that it sees; the pointer of an empty std::vector may be
 *   one that it does not see.
 * - A list has fewer than 2^63 bytes, a bool is true or false, and a uint64_t, an int64_t and a struct are aligned as in C.
 * - Calls share nothing: each has its own table, on its stack (less than 100 KB) or on the heap. A call that takes memory takes it from the
 *   program's malloc and realloc, which give blocks aligned to 16 bytes, and gives it back to its free. It is not made from a signal handler,
 *   nor in the forked child of a process with threads.
 * - Nothing else is asked. For every list of elements there is an answer, and it is the one told here: that is proved (README.md).
 *
 * Refusals are told by their numbers, and 0 is none:
 *
 *    1  a sheet of more than 32,768 bytes, at byte 0
 *    2  the sheet ends too early, at its length: it is empty, or ends in a leaf
 *    3  a number that is not in its shortest form, or is 2^64 and up, at its first byte
 *    4  a first byte of another kind, an unknown flag, or a sign without its bound, at that byte
 *    5  a numerator or denominator that is 0 or above 2^63 - 1, at its first byte
 *    6  a list of more than six divisors, at the first byte of its count
 *    7  an amount beyond 64 bits, or minus zero, at its first byte; a date that is none, at its year
 *    8  a minimum above the maximum, at the flags of the leaf
 *    9  a set of weekdays that is 0 or above 127, at its first byte
 *   10  a leaf that finds the table full, at its flags
 *
 * Bytes count from 0, which is the byte of the kind.
 */
#ifndef RULE_LINES_H
#define RULE_LINES_H

#include <stdbool.h>
#include <stddef.h>
#include <stdint.h>

#if defined(__GNUC__)
#define RULE_LINES_NO_NULL __attribute__((nonnull))
#else
#define RULE_LINES_NO_NULL
#endif

#ifdef __cplusplus
extern "C" {
#endif

/* A divisor p/q. */
struct rule_lines_fraction {
    uint64_t p;
    uint64_t q;
};

/* A list of divisors: the first `count` places, at most six; behind them stands 0/0. Where the list as written was refused, `refusal` is 5 or 6
 * and `count` is 0. */
struct rule_lines_divisors {
    struct rule_lines_fraction places[6];
    size_t count;
    uint8_t refusal;
};

/* How far a sheet was taken into a new list of 128 places. */
struct rule_lines_taken {
    /* How many leaves were accepted. */
    size_t accepted;
    /* The first byte after the last of them; where there is none, that after the kind's byte, or 0 where the sheet is of no kind. What stands from
     * here on was not taken. */
    size_t start;
    /* The number of what refused the sheet, 0 where nothing did, and the byte that it names. */
    uint8_t refusal;
    size_t byte;
};

/* Whether an amount is admitted, and how far the sheet was taken that was asked. */
struct rule_lines_answer {
    bool admitted;
    struct rule_lines_taken sheet;
};

/* What a sheet came to as text, `length` bytes of it. Where memory ran out, `done` is false, and all else is zero. */
struct rule_lines_text {
    bool done;
    struct rule_lines_taken sheet;
    size_t length;
};

/* How many leaves were read, how many questions were answered yes, and how many lines there were. Where memory ran out, `done` is false, and all
 * else is zero. */
struct rule_lines_counts {
    bool done;
    size_t leaves;
    size_t yes;
    size_t lines;
};

/* The folded list of required divisors as written: it has the same common multiples. */
RULE_LINES_NO_NULL
struct rule_lines_divisors rule_lines_fold(const struct rule_lines_fraction *written, size_t count);

/* The thinned list of barred divisors as written: it bars the same integers. */
RULE_LINES_NO_NULL
struct rule_lines_divisors rule_lines_thin(const struct rule_lines_fraction *written, size_t count);

/* Takes a sheet, of days where it begins with 44 (hexadecimal), else of amounts, and writes its lines, and last what refused it, to the front of
 * `out`: as much as the `room` bytes there hold. The bytes behind the text stay, and where memory ran out all of them. A text has at most
 * 600 bytes a line, and 129 lines. */
RULE_LINES_NO_NULL
struct rule_lines_text rule_lines_print(const uint8_t *sheet, size_t bytes, uint8_t *out, size_t room);

/* Writes the sheet that goes on from the byte `start` of another, as `rule_lines_taken` has it: the byte of the kind, and all bytes from `start` on. It
 * stands at the front of `out`, as much of it as the `room` bytes there hold; the answer is how many bytes it has, at most those of the
 * sheet. So a sheet of too many leaves is taken to its end, 128 at a time. */
RULE_LINES_NO_NULL
size_t rule_lines_rest(const uint8_t *sheet, size_t bytes, size_t start, uint8_t *out, size_t room);

/* Whether a leaf admits the amount, of those that were accepted of a sheet of amounts; where `read` is true, whether one of its lines does, which
 * admit the same amounts. */
RULE_LINES_NO_NULL
struct rule_lines_answer rule_lines_admit(const uint8_t *sheet, size_t bytes, int64_t value, bool read);

/* Reads amount leaves that stand one after the other, with no byte of a kind before them, into a new table of so many places: up to the end of the
 * bytes, a leaf that is refused, or the last place. `yes` and `lines` are 0. */
RULE_LINES_NO_NULL
struct rule_lines_counts rule_lines_make(size_t places, const uint8_t *leaves, size_t bytes);

/* Reads leaves as `rule_lines_make` does, inserts them into a new list of so many places, asks it each amount of `values`, and reads it so many
 * times; without a reading `lines` is 0. */
RULE_LINES_NO_NULL
struct rule_lines_counts rule_lines_run(size_t places, const uint8_t *leaves, size_t bytes, const int64_t *values, size_t count, size_t readings);

#ifdef __cplusplus
}
#endif

#endif
