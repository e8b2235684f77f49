/*
 * Calls each function of the library on good, refused, empty and full lists, and where memory runs out, and prints what it tells.
 * try.sh compares that with try_rule_lines.stdout, which was worked out by hand.
 */
#include "rule_lines.h"

#include <inttypes.h>
#include <stdio.h>
#include <stdlib.h>
#include <string.h>

#define COUNT(list) (sizeof(list) / sizeof *(list))

typedef struct rule_lines_fraction Fraction;

/* ---- Memory that runs out: the linker puts these in the place of malloc and realloc. ---- */

void *__real_malloc(size_t size);
void *__real_realloc(void *block, size_t size);
void *__wrap_malloc(size_t size);
void *__wrap_realloc(void *block, size_t size);

/* How many more allocations succeed, where they are counted. */
static bool is_counted = false;
static size_t left = 0;

static bool may_take(void) {
    if (!is_counted) return true;
    if (left == 0) return false;
    left--;
    return true;
}

void *__wrap_malloc(size_t size) { return may_take() ? __real_malloc(size) : NULL; }

void *__wrap_realloc(void *block, size_t size) { return may_take() ? __real_realloc(block, size) : NULL; }

/* ---- Lists of divisors ---- */

static void tell_fraction(Fraction f) {
    printf("%" PRIu64, f.p);
    if (f.q != 1) printf("/%" PRIu64, f.q);
}

static void tell_list(const Fraction *list, size_t count) {
    if (count == 0) printf("-");
    for (size_t i = 0; i < count; i++) {
        if (i > 0) printf(",");
        tell_fraction(list[i]);
    }
}

static void tell_divisors(const char *word, const Fraction *written, size_t count, struct rule_lines_divisors told) {
    printf("%s ", word);
    tell_list(written, count);
    printf(": ");
    if (told.refusal != 0) printf("refused %u, ", told.refusal);
    tell_list(told.places, told.count);
    for (size_t i = told.count; i < 6; i++) {
        if (told.places[i].p != 0 || told.places[i].q != 0) printf(", and something behind them");
    }
    printf("\n");
}

static void try_lists(void) {
    const Fraction joins[] = {{25, 2}, {10, 1}};
    const Fraction strips[] = {{4, 1}, {9223372036854775806u, 1}};
    const Fraction divided[] = {{4, 1}, {12, 1}, {6, 1}};
    const Fraction zero[] = {{0, 1}};
    const Fraction seven[] = {{2, 1}, {3, 1}, {4, 1}, {5, 1}, {6, 1}, {7, 1}, {8, 1}};
    /* The first six primes above 2^32, and the first six. */
    const Fraction large[] = {{4294967311u, 1}, {4294967357u, 1}, {4294967371u, 1}, {4294967377u, 1}, {4294967387u, 1}, {4294967389u, 1}};
    const Fraction small[] = {{2, 1}, {3, 1}, {5, 1}, {7, 1}, {11, 1}, {13, 1}};
    tell_divisors("fold", joins, 2, rule_lines_fold(joins, 2));
    tell_divisors("fold", strips, 2, rule_lines_fold(strips, 2));
    tell_divisors("fold", large, 6, rule_lines_fold(large, 6));
    tell_divisors("fold", large, 0, rule_lines_fold(large, 0));
    tell_divisors("fold", zero, 1, rule_lines_fold(zero, 1));
    tell_divisors("fold", seven, 7, rule_lines_fold(seven, 7));
    tell_divisors("thin", divided, 3, rule_lines_thin(divided, 3));
    tell_divisors("thin", small, 6, rule_lines_thin(small, 6));
    tell_divisors("thin", small, 0, rule_lines_thin(small, 0));
    tell_divisors("thin", zero, 1, rule_lines_thin(zero, 1));
    tell_divisors("thin", seven, 7, rule_lines_thin(seven, 7));
}

/* ---- Sheets ---- */

/* Up to 4 and from 6 by 2; up to 4 and from 8 by 2; up to 4 by 2, then a leaf from 9 to 4, then one from 1 to 2. */
static const uint8_t joined[] = {0x41, 2, 4, 1, 2, 1, 0, 1, 6, 1, 2, 1, 0};
static const uint8_t apart[] = {0x41, 2, 4, 1, 2, 1, 0, 1, 8, 1, 2, 1, 0};
static const uint8_t turned[] = {0x41, 2, 4, 1, 2, 1, 0, 3, 9, 4, 0, 0, 3, 1, 2, 0, 0};
/* Monday to Friday up to 3 May 2024 and from 6 May 2024. */
static const uint8_t weekend[] = {0x44, 2, 0xE8, 0x0F, 5, 3, 31, 1, 0xE8, 0x0F, 5, 6, 31};

/* 130 amounts, from 0 on each fourth, alone: two leaves more than the table has places. */
static uint8_t many[1000];
static size_t many_bytes = 0;

static void put_number(unsigned n) {
    for (; n >= 0x80; n >>= 7) many[many_bytes++] = (uint8_t)(n | 0x80);
    many[many_bytes++] = (uint8_t)n;
}

static void put_many(void) {
    many[many_bytes++] = 0x41;
    for (unsigned i = 0; i < 130; i++) {
        many[many_bytes++] = 3;
        put_number(4 * i);
        put_number(4 * i);
        put_number(0);
        put_number(0);
    }
}

static uint8_t text[100000];

static void tell_taken(struct rule_lines_taken taken) {
    printf("accepted %zu, start %zu", taken.accepted, taken.start);
    if (taken.refusal != 0) printf(", refused %u at %zu", taken.refusal, taken.byte);
}

static void print_whole(const char *name, const uint8_t *sheet, size_t bytes) {
    const struct rule_lines_text told = rule_lines_print(sheet, bytes, text, sizeof text);
    printf("%s: %s, ", name, told.done ? "done" : "not done");
    tell_taken(told.sheet);
    printf(", %zu bytes\n%.*s", told.length, (int)told.length, (const char *)text);
}

/* Prints the sheet of too many leaves, 128 at a time. */
static void print_in_turn(void) {
    static uint8_t rest[sizeof many];
    const struct rule_lines_text told = rule_lines_print(many, many_bytes, text, sizeof text);
    size_t lines = 0;
    for (size_t i = 0; i < told.length; i++) lines += text[i] == '\n';
    printf("many: ");
    tell_taken(told.sheet);
    printf(", %zu lines and refusals\n", lines);
    const size_t length = rule_lines_rest(many, many_bytes, told.sheet.start, rest, sizeof rest);
    printf("the rest of them, %zu bytes\n", length);
    print_whole("many, the rest", rest, length);
}

static void print_short(size_t room) {
    memset(text, '.', 20);
    const struct rule_lines_text told = rule_lines_print(apart, sizeof apart, text, room);
    printf("apart, room %zu: %zu bytes, %.20s\n", room, told.length, (const char *)text);
}

static void rest_short(size_t start, size_t room) {
    uint8_t rest[4] = {7, 7, 7, 7};
    const size_t length = rule_lines_rest(apart, sizeof apart, start, rest, room);
    printf("apart from %zu, room %zu: %zu bytes, %u %u %u %u\n", start, room, length, rest[0], rest[1], rest[2], rest[3]);
}

static void try_sheets(void) {
    print_whole("joined", joined, sizeof joined);
    print_whole("apart", apart, sizeof apart);
    print_whole("weekend", weekend, sizeof weekend);
    print_whole("turned", turned, sizeof turned);
    const struct rule_lines_text told = rule_lines_print(turned, sizeof turned, text, sizeof text);
    printf("turned, not taken:");
    for (size_t i = told.sheet.start; i < sizeof turned; i++) printf(" %u", turned[i]);
    printf("\n");
    print_whole("empty", joined, 0);
    print_in_turn();
    print_short(0);
    print_short(3);
    print_short(20);
    rest_short(7, 4);
    rest_short(7, 2);
    rest_short(0, 4);
    rest_short(100, 4);
}

static void ask(const char *name, const uint8_t *sheet, size_t bytes, int64_t value) {
    const struct rule_lines_answer leaves = rule_lines_admit(sheet, bytes, value, false);
    const struct rule_lines_answer lines = rule_lines_admit(sheet, bytes, value, true);
    printf("%s, %" PRId64 ": %s, lines %s, ", name, value, leaves.admitted ? "yes" : "no", lines.admitted ? "yes" : "no");
    tell_taken(leaves.sheet);
    printf("\n");
}

static void try_questions(void) {
    ask("joined", joined, sizeof joined, 8);
    ask("joined", joined, sizeof joined, 5);
    ask("apart", apart, sizeof apart, 6);
    ask("turned", turned, sizeof turned, 2);
    ask("turned", turned, sizeof turned, 1);
    ask("many", many, many_bytes, 508);
    ask("many", many, many_bytes, 512);
    ask("weekend", weekend, sizeof weekend, 0);
    ask("empty", joined, 0, 0);
}

/* ---- Runs: the leaves of a sheet without the byte of its kind ---- */

static void tell_counts(const char *name, size_t places, struct rule_lines_counts told) {
    printf("%s, %zu places: %s, leaves %zu, yes %zu, lines %zu\n", name, places, told.done ? "done" : "not done", told.leaves, told.yes, told.lines);
}

static void try_runs(void) {
    const int64_t values[] = {5, 8, -2, 4};
    const uint8_t *leaves = joined + 1, *bad = turned + 1;
    const size_t bytes = sizeof joined - 1, bad_bytes = sizeof turned - 1;
    tell_counts("make", 8, rule_lines_make(8, leaves, bytes));
    tell_counts("make, full", 1, rule_lines_make(1, leaves, bytes));
    tell_counts("make, refused", 8, rule_lines_make(8, bad, bad_bytes));
    tell_counts("make, empty", 8, rule_lines_make(8, leaves, 0));
    tell_counts("make, no memory", SIZE_MAX, rule_lines_make(SIZE_MAX, leaves, bytes));
    tell_counts("run", 8, rule_lines_run(8, leaves, bytes, values, COUNT(values), 1));
    tell_counts("run, read twice", 8, rule_lines_run(8, leaves, bytes, values, COUNT(values), 2));
    tell_counts("run, not read", 8, rule_lines_run(8, leaves, bytes, values, COUNT(values), 0));
    tell_counts("run, no question", 8, rule_lines_run(8, leaves, bytes, values, 0, 1));
    tell_counts("run, full", 1, rule_lines_run(1, leaves, bytes, values, COUNT(values), 1));
    tell_counts("run, no place", 0, rule_lines_run(0, leaves, bytes, values, COUNT(values), 1));
    tell_counts("run, refused", 8, rule_lines_run(8, bad, bad_bytes, values, COUNT(values), 1));
    tell_counts("run, empty", 8, rule_lines_run(8, leaves, 0, values, COUNT(values), 1));
    tell_counts("run, no memory", SIZE_MAX, rule_lines_run(SIZE_MAX, leaves, bytes, values, COUNT(values), 1));
}

/* ---- Each allocation fails in turn, until a call needs no more ---- */

static bool is_nothing(struct rule_lines_counts told) { return told.leaves == 0 && told.yes == 0 && told.lines == 0; }

static bool is_nothing_printed(struct rule_lines_text told) {
    const struct rule_lines_taken t = told.sheet;
    if (t.accepted != 0 || t.start != 0 || t.refusal != 0 || t.byte != 0 || told.length != 0) return false;
    for (size_t i = 0; i < sizeof text; i++) {
        if (text[i] != '.') return false;
    }
    return true;
}

/* What the calls tell where so many allocations succeed: whether they are done, and else whether they tell nothing. */
struct outcome {
    bool done;
    bool nothing;
};

static struct outcome print_with(size_t count) {
    memset(text, '.', sizeof text);
    left = count;
    is_counted = true;
    const struct rule_lines_text told = rule_lines_print(turned, sizeof turned, text, sizeof text);
    is_counted = false;
    return (struct outcome){told.done, !told.done && is_nothing_printed(told)};
}

static struct outcome make_with(size_t count) {
    left = count;
    is_counted = true;
    const struct rule_lines_counts told = rule_lines_make(8, joined + 1, sizeof joined - 1);
    is_counted = false;
    return (struct outcome){told.done, !told.done && is_nothing(told)};
}

static struct outcome run_with(size_t count) {
    const int64_t values[] = {8};
    left = count;
    is_counted = true;
    const struct rule_lines_counts told = rule_lines_run(8, joined + 1, sizeof joined - 1, values, COUNT(values), 1);
    is_counted = false;
    return (struct outcome){told.done, !told.done && is_nothing(told)};
}

static void try_without(const char *name, struct outcome call(size_t)) {
    size_t count = 0;
    for (; count < 100; count++) {
        const struct outcome o = call(count);
        if (o.done) break;
        if (!o.nothing) printf("%s without memory, %zu: something is told\n", name, count);
    }
    printf("%s: %s\n", name, count == 0 ? "takes no memory" : count < 100 ? "nothing told without memory" : "never done");
}

int main(void) {
    put_many();
    try_lists();
    try_sheets();
    try_questions();
    try_runs();
    try_without("print", print_with);
    try_without("make", make_with);
    try_without("run", run_with);
#ifdef NULL_LIST
    /* No compiler that knows of `nonnull` takes this. */
    rule_lines_fold(NULL, 0);
#endif
    return 0;
}
