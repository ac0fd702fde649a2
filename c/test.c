/* Tries the calls of include/berrytick.h: P1 to P10, role inclusions, concepts and the page of P1, P1 edited, the convention, and empty slices
 * that are NULL. Prints a line for each check that fails and the number of checks; the status is 0 where none fails. tools/test-bindings
 * builds and runs it. */
#include "berrytick.h"

#include <stdio.h>
#include <string.h>

/* What is lent holds this before a call, so that a byte or number shows that is not written, or should not be. */
#define FILLED 0xA5
#define UNTOUCHED 0xA5A5A5A5u

/* Work memory of as many names as version 1 can have. */
enum { WORK = 4 * 128 * 128 };

static unsigned checks;
static unsigned failures;

static void check(int holds, const char *what)
{
    checks++;
    if (!holds) {
        failures++;
        printf("FAILED: %s\n", what);
    }
}

/* Bytes with their number: what the calls take as two arguments. */
struct bytes {
    const uint8_t *start;
    size_t length;
};

#define BYTES(...) {(const uint8_t[]){__VA_ARGS__}, sizeof((const uint8_t[]){__VA_ARGS__})}
#define NONE {NULL, 0}
#define PASS(slice) (slice).start, (slice).length

static int all_are(const uint8_t *bytes, size_t length, uint8_t value)
{
    for (size_t at = 0; at < length; at++) {
        if (bytes[at] != value) {
            return 0;
        }
    }
    return 1;
}

/* Two releases, a signature, the bytes of the names, and those of the role pairs. */
struct comparison {
    const char *name;
    struct bytes first, second, signature, expected, pairs;
};

#define ELT1 0x45, 0x4C, 0x54, 1, 0
#define ELT3 0x45, 0x4C, 0x54, 3, 0

#define P1_FIRST BYTES(ELT1, 4, 0, 1, 0, 2, 2, 1, 2)
#define P1_SECOND BYTES(ELT1, 4, 0, 1, 0, 2, 2, 1, 3)
#define P3_FIRST BYTES(ELT1, 4, 1, 2, 0, 3, 0, 2, 2, 1, 2, 0, 1)
#define P3_SECOND BYTES(ELT1, 4, 1, 3, 0, 1, 2, 2, 3, 2, 3, 0, 0, 3, 3, 0, 1)
#define CIRCLE BYTES(ELT1, 2, 1, 1, 0, 3, 0, 0)
#define P5_SECOND BYTES(ELT1, 2, 1, 2, 0, 3, 0, 1, 1, 1, 1, 0)
#define P6_SECOND BYTES(ELT1, 2, 1, 2, 0, 3, 0, 1, 1, 3, 0, 255)
#define P8_FIRST BYTES(ELT1, 2, 2, 2, 0, 4, 0, 1, 1, 4, 1, 1)
#define P8_SECOND BYTES(ELT1, 2, 2, 2, 0, 3, 0, 1, 1, 4, 1, 1)

/* Name 0 lies below "some role 0 of everything"; and role 0 lies under role 1. */
#define UNDER_FIRST BYTES(ELT3, 1, 0, 2, 1, 0, 1, 0, 1, 0, 0, 3, 0, 255, 255)
#define UNDER_SECOND BYTES(ELT1, 1, 2, 1, 0, 3, 0, 255)
/* No name and three roles: 0 under 1 under 2, and these in a circle. */
#define ROLE_CHAIN BYTES(ELT3, 0, 0, 3, 0, 0, 2, 0, 1, 1, 2)
#define ROLE_CIRCLE BYTES(ELT3, 0, 0, 3, 0, 0, 3, 0, 1, 1, 2, 2, 0)
#define NO_PAIRS BYTES(ELT1, 0, 3, 0)

static const struct comparison comparisons[] = {
    {"P1", P1_FIRST, P1_SECOND, BYTES(1, 1, 1, 0), BYTES(3, 0, 2, 0), NONE},
    {"P2", P1_SECOND, P1_FIRST, BYTES(1, 1, 1, 0), BYTES(0, 0, 0, 0), NONE},
    {"P3", P3_FIRST, P3_SECOND, BYTES(1, 1, 0, 0, 1), BYTES(1, 0, 0, 0), BYTES(0)},
    {"P4", P3_SECOND, P3_FIRST, BYTES(1, 1, 0, 0, 1), BYTES(0, 0, 0, 0), BYTES(0)},
    {"P5", CIRCLE, P5_SECOND, BYTES(1, 0, 1), BYTES(0, 0), BYTES(0)},
    {"P5, exchanged", P5_SECOND, CIRCLE, BYTES(1, 0, 1), BYTES(0, 0), BYTES(0)},
    {"P6", CIRCLE, P6_SECOND, BYTES(1, 0, 1), BYTES(1, 0), BYTES(0)},
    {"P7", CIRCLE, P6_SECOND, BYTES(1, 0, 0), BYTES(0, 0), BYTES(0)},
    {"P8", P8_FIRST, P8_SECOND, BYTES(1, 0, 1, 1), BYTES(0, 0), BYTES(0, 0, 0, 0)},
    {"P8, exchanged", P8_SECOND, P8_FIRST, BYTES(1, 0, 1, 1), BYTES(0, 0), BYTES(0, 0, 0, 0)},
    {"P9", P8_FIRST, P8_SECOND, BYTES(1, 1, 1, 1), BYTES(2, 0), BYTES(0, 0, 0, 0)},
    {"a role under another", UNDER_FIRST, UNDER_SECOND, BYTES(1, 1, 1), BYTES(1), BYTES(0, 1, 0, 0)},
    {"a role under another, exchanged", UNDER_SECOND, UNDER_FIRST, BYTES(1, 1, 1), BYTES(0), BYTES(0, 0, 0, 0)},
    {"a chain of roles", ROLE_CHAIN, NO_PAIRS, BYTES(1, 0, 1), NONE, BYTES(0, 0, 1, 0, 0, 0, 0, 0, 0)},
    {"a circle of roles", ROLE_CIRCLE, ROLE_CHAIN, BYTES(1, 1, 1), NONE, BYTES(0, 0, 0, 1, 0, 0, 1, 1, 0)},
};

static const struct bytes p1_first = P1_FIRST;
static const struct bytes p1_second = P1_SECOND;
static const struct bytes p1_signature = BYTES(1, 1, 1, 0);

/* P10: a release, and the concepts ∃r.A and A. */
static const struct bytes p10 = BYTES(ELT1, 1, 1, 1, 0, 4, 0, 255);
static const struct bytes some_a = BYTES(3, 0, 1, 0);
static const struct bytes a = BYTES(1, 0);

static const struct bytes none = NONE;

static uint8_t work[WORK];
static uint8_t output[BERRYTICK_RELEASE_BYTES];
static uint8_t pairs[BERRYTICK_ROLES * BERRYTICK_ROLES];

static void refill(void)
{
    memset(work, FILLED, sizeof work);
    memset(output, FILLED, sizeof output);
    memset(pairs, FILLED, sizeof pairs);
}

/* The lent bytes begin with the expected ones, and the rest is as it was. */
static int begins_with(const uint8_t *bytes, size_t length, struct bytes expected)
{
    return (expected.length == 0 || memcmp(bytes, expected.start, expected.length) == 0) &&
           all_are(bytes + expected.length, length - expected.length, FILLED);
}

/* After an answer the needed work memory is zero; the rest, or after a refusal all of it, is as it was. */
static int work_is_left(size_t zeros)
{
    return all_are(work, zeros, 0) && all_are(work + zeros, sizeof work - zeros, FILLED);
}

static size_t needed(size_t names)
{
    uint32_t length = UNTOUCHED;
    check(berrytick_work_length(names, &length) == 0, "the work memory of some names");
    return length;
}

static void try_comparisons(void)
{
    for (size_t at = 0; at < sizeof comparisons / sizeof comparisons[0]; at++) {
        const struct comparison *p = &comparisons[at];
        size_t names = p->expected.length;
        refill();
        uint32_t code = berrytick_compare(PASS(p->first), PASS(p->second), PASS(p->signature), output, sizeof output,
                                          pairs, sizeof pairs, work, sizeof work);
        check(code == 0, p->name);
        check(begins_with(output, sizeof output, p->expected), p->name);
        check(begins_with(pairs, sizeof pairs, p->pairs), p->name);
        check(work_is_left(needed(names)), p->name);
    }
}

static void try_question(void)
{
    uint32_t answer = UNTOUCHED;
    refill();
    check(berrytick_ask(PASS(p10), PASS(some_a), PASS(a), &answer, work, sizeof work) == 0 && answer == 1, "P10");
    check(berrytick_ask(PASS(p10), PASS(a), PASS(some_a), &answer, work, sizeof work) == 0 && answer == 2, "P10, exchanged");
    check(work_is_left(needed(1)), "P10: work memory");
    answer = UNTOUCHED;
    refill();
    check(berrytick_ask(PASS(p10), PASS(a), PASS(p10), &answer, work, sizeof work) == 19 * 256 + 2, "19 of the second concept");
    check(answer == UNTOUCHED && work_is_left(0), "a refused question changes nothing");
}

static void try_check(void)
{
    uint32_t counts[3] = {UNTOUCHED, UNTOUCHED, UNTOUCHED};
    check(berrytick_check(p1_first.start, p1_first.length - 1, counts) == 7 * 256 + 1, "a file that ends inside an axiom");
    check(counts[0] == UNTOUCHED && counts[1] == UNTOUCHED && counts[2] == UNTOUCHED, "a refused check changes nothing");
    check(berrytick_check(PASS(comparisons[2].first), counts) == 0, "P3's first release");
    check(counts[0] == 4 && counts[1] == 1 && counts[2] == 2, "its names, roles and axioms");
    const struct bytes circle = ROLE_CIRCLE;
    const struct bytes falling = BYTES(ELT3, 0, 0, 3, 0, 0, 2, 1, 2, 0, 1);
    check(berrytick_check(PASS(circle), counts) == 0 && counts[0] == 0 && counts[1] == 3 && counts[2] == 0, "pairs of roles");
    check(berrytick_check(PASS(falling), counts) == 49 * 256 + 1, "pairs that do not rise");
}

static void try_work_length(void)
{
    uint32_t length = UNTOUCHED;
    check(needed(0) == 4 && needed(127) == 65536 && needed(BERRYTICK_NAMES) == 4194304, "work memory at the limits");
    check(berrytick_work_length(BERRYTICK_NAMES + 1, &length) == 4 * 256 && length == UNTOUCHED, "one name too many");
    check(berrytick_work_length(SIZE_MAX, &length) == 4 * 256 && length == UNTOUCHED, "far too many");
}

static int place_is(const uint32_t place[3], uint32_t side, uint32_t start, uint32_t length)
{
    return place[0] == side && place[1] == start && place[2] == length;
}

static void try_show(void)
{
    const struct bytes first = P3_FIRST;
    const struct bytes second = P3_SECOND;
    uint32_t place[3] = {UNTOUCHED, UNTOUCHED, UNTOUCHED};
    check(berrytick_show(PASS(first), PASS(second), 1, 2, place) == 0 && place_is(place, 1, 12, 5), "name 2 by the first release");
    check(berrytick_show(PASS(first), PASS(second), 2, 2, place) == 0 && place_is(place, 2, 13, 4), "name 2 by the second");
    check(berrytick_show(PASS(first), PASS(second), 2, 1, place) == 0 && place_is(place, 1, 0, 0), "a name without axiom");
    check(berrytick_show(PASS(first), PASS(second), 3, 0, place) == 0 && place_is(place, 1, 0, 0), "no such side");
    check(berrytick_show(PASS(first), PASS(none), 1, 0, place) == 0 && place_is(place, 1, 0, 0), "no second release");
}

static void try_sheet(void)
{
    const struct bytes signatures = BYTES(1, 1, 1, 0, 1, 0, 0, 0, 0, 0, 0, 0);
    struct berrytick_row rows[4];
    refill();
    memset(rows, FILLED, sizeof rows);
    check(berrytick_compare_branches(PASS(p1_first), PASS(p1_second), PASS(signatures), 3, BERRYTICK_ROUND_DOWN, work, sizeof work,
                                     rows, 2) == 43 * 256,
          "a sheet with fewer rows than signatures");
    check(berrytick_compare_branches(PASS(p1_first), PASS(p1_second), PASS(signatures), 3, 257, work, sizeof work, rows, 2) == 53 * 256,
          "a sheet by no rule");
    check(rows[0].chosen == UNTOUCHED && work_is_left(0), "a refused sheet changes nothing");
    check(berrytick_compare_branches(PASS(p1_first), PASS(p1_second), PASS(signatures), 3, BERRYTICK_ROUND_DOWN, work, sizeof work,
                                     rows, 4) == 0,
          "P1's releases for three branches");
    check(rows[0].chosen == 3 && rows[0].left == 1 && rows[0].right == 2 && rows[0].share == 666, "the first branch");
    check(rows[1].chosen == 1 && rows[1].left == 0 && rows[1].right == 0 && rows[1].share == 0, "the second");
    check(rows[2].chosen == 0 && rows[3].chosen == UNTOUCHED && work_is_left(needed(4)), "the third, and what is beyond");
    check(berrytick_compare_branches(PASS(p1_first), PASS(p1_second), PASS(signatures), 3, BERRYTICK_ROUND_TO_NEAREST, work, sizeof work,
                                     rows, 3) == 0,
          "the same to the nearest");
    check(rows[0].share == 667 && rows[1].share == 0 && rows[2].share == 0, "their shares");
}

static void try_report(void)
{
    const char *expected = "names 4 roles 0\n000 B\n002 R\nleft 1 right 2\n";
    uint32_t length = UNTOUCHED;
    refill();
    uint32_t code = berrytick_report(PASS(p1_first), PASS(p1_second), PASS(p1_signature), output, BERRYTICK_REPORT_BYTES - 1, &length,
                                     work, sizeof work);
    check(code == 33 * 256, "an output shorter than the longest report");
    code = berrytick_report(PASS(p1_first), PASS(p1_second), PASS(none), output, sizeof output, &length, work, sizeof work);
    check(code == 17 * 256, "a report over a signature that is too short");
    check(length == UNTOUCHED && all_are(output, sizeof output, FILLED) && work_is_left(0), "a refused report changes nothing");
    code = berrytick_report(PASS(p1_first), PASS(p1_second), PASS(p1_signature), output, BERRYTICK_REPORT_BYTES, &length,
                            work, sizeof work);
    check(code == 0 && length == strlen(expected) && memcmp(output, expected, length) == 0, "P1's report");
    check(all_are(output + length, sizeof output - length, FILLED) && work_is_left(needed(4)), "what is beyond the report");
}

/* P1 has 4 names. */
static uint32_t concept[BERRYTICK_CONCEPT_NUMBERS(4) + 2];

/* The concept of P1 for a name and a side: these rows and no more, and the rest as it was. */
static int concept_is(size_t name, size_t side, const uint32_t *rows, size_t numbers)
{
    uint32_t count = UNTOUCHED;
    refill();
    memset(concept, FILLED, sizeof concept);
    uint32_t code = berrytick_show_concept(PASS(p1_first), PASS(p1_second), PASS(p1_signature), name, side, concept,
                                           sizeof concept / sizeof concept[0], &count, work, sizeof work);
    return code == 0 && count == numbers / 3 && memcmp(concept, rows, numbers * sizeof rows[0]) == 0 &&
           all_are((const uint8_t *)(concept + numbers), sizeof concept - numbers * sizeof rows[0], FILLED) && work_is_left(needed(4));
}

static void try_concepts(void)
{
    const uint32_t left[] = {1, 2, 0};
    const uint32_t right[] = {1, 1, 0, 1, 2, 0, 2, 0, 1};
    const size_t numbers = BERRYTICK_CONCEPT_NUMBERS(4);
    uint32_t count = UNTOUCHED, answer = UNTOUCHED;
    check(concept_is(0, 1, left, 3), "2 lies above 0");
    check(concept_is(0, 2, right, 9), "1 and 2 lie below 0");
    check(concept_is(1, 1, left, 0) && concept_is(3, 2, left, 0), "names that are not reported");
    check(concept_is(0, 0, left, 0) && concept_is(0, 3, left, 0) && concept_is(4, 1, left, 0), "no such side, no such name");
    refill();
    memset(concept, FILLED, sizeof concept);
    check(berrytick_show_concept(PASS(p1_first), PASS(p1_second), PASS(p1_signature), 0, 1, concept, numbers - 1, &count, work,
                                 sizeof work) == 44 * 256,
          "too few rows");
    check(berrytick_show_concept(PASS(p1_first), PASS(p1_second), PASS(p1_signature), 0, 1, concept, numbers, &count, work, 99) ==
              32 * 256,
          "too little memory to show a concept");
    check(berrytick_check_concept(PASS(p1_first), PASS(p1_second), PASS(p1_signature), 0, 1, left, 3, &answer, work, 109) == 32 * 256,
          "too little memory to check a row");
    check(count == UNTOUCHED && answer == UNTOUCHED && all_are((const uint8_t *)concept, sizeof concept, FILLED) && work_is_left(0),
          "a refusal of either changes nothing");
    check(berrytick_check_concept(PASS(p1_first), PASS(p1_second), PASS(p1_signature), 0, 1, left, 3, &answer, work, sizeof work) == 0 &&
              answer == 1 && work_is_left(110),
          "2 is checked on the left");
    refill();
    check(berrytick_check_concept(PASS(p1_first), PASS(p1_second), PASS(p1_signature), 0, 2, right, 9, &answer, work, sizeof work) == 0 &&
              answer == 1 && work_is_left(130),
          "1 and 2 are checked on the right");
    check(berrytick_check_concept(PASS(p1_first), PASS(p1_second), PASS(p1_signature), 0, 2, left, 3, &answer, work, sizeof work) == 0 &&
              answer == 0,
          "and not 2 alone");
}

static void try_page(void)
{
    const struct bytes result = BYTES(3, 0, 2, 0), no_result = BYTES(3, 0, 4, 0);
    uint8_t page[65];
    uint32_t length = UNTOUCHED;
    memset(page, ' ', 64);
    memcpy(page, "   0 B             2 R", 22);
    page[64] = '\n';
    refill();
    check(berrytick_page(PASS(no_result), output, sizeof output, &length) == 51 * 256, "a page of no result");
    check(berrytick_page(PASS(result), output, 64, &length) == 51 * 256, "an output that is too short for a page");
    check(berrytick_page_length(PASS(no_result), &length) == 51 * 256, "the length of no page");
    check(length == UNTOUCHED && all_are(output, sizeof output, FILLED), "a refused page changes nothing");
    check(berrytick_page_length(PASS(result), &length) == 0 && length == 65, "the length of P1's page");
    length = UNTOUCHED;
    check(berrytick_page(PASS(result), output, sizeof output, &length) == 0 && length == 65 && memcmp(output, page, 65) == 0 &&
              all_are(output + 65, sizeof output - 65, FILLED),
          "P1's page");
}

static void try_practice(void)
{
    uint8_t again[BERRYTICK_PRACTICE_BYTES];
    uint32_t length = UNTOUCHED, counts[3];
    refill();
    check(berrytick_practice(1, 128, 33, output, sizeof output, &length) == 4 * 256, "a practice release of 128 names");
    check(berrytick_practice(1, 127, 33, output, sizeof output, &length) == 5 * 256, "of 33 roles");
    check(berrytick_practice(1, 127, 32, output, 7, &length) == 52 * 256, "an output that is too short for a practice release");
    check(length == UNTOUCHED && all_are(output, sizeof output, FILLED), "a refused practice release changes nothing");
    check(berrytick_practice(1, 127, 32, output, sizeof output, &length) == 0 && length <= sizeof again &&
              all_are(output + length, sizeof output - length, FILLED),
          "a practice release");
    check(berrytick_check(output, length, counts) == 0 && counts[0] == 127 && counts[1] == 32, "it is accepted");
    check(berrytick_practice(1, 127, 32, again, sizeof again, &length) == 0 && memcmp(output, again, length) == 0, "and the same once more");
}

static void try_rewrite(void)
{
    const struct bytes expected = BYTES(0x45, 0x4C, 0x54, 2, 0, 4, 0, 0, 1, 0, 0, 0, 2, 2, 1, 0, 2, 0);
    const struct bytes with_pairs = ROLE_CHAIN;
    uint32_t length = UNTOUCHED;
    refill();
    check(berrytick_rewrite(PASS(p1_first), 3, output, sizeof output, &length) == 3 * 256, "no such version");
    check(berrytick_rewrite(PASS(with_pairs), 2, output, sizeof output, &length) == 3 * 256 + 1, "a release with pairs of roles");
    check(berrytick_rewrite(PASS(p1_first), 2, output, expected.length - 1, &length) == 41 * 256, "an output that is too short");
    check(length == UNTOUCHED && all_are(output, sizeof output, FILLED), "a refused rewriting changes nothing");
    check(berrytick_rewrite(PASS(p1_first), 2, output, sizeof output, &length) == 0 && length == expected.length &&
              memcmp(output, expected.start, length) == 0,
          "P1's first release in version 2");
    uint8_t back[64];
    check(berrytick_rewrite(output, length, 1, back, sizeof back, &length) == 0 && length == p1_first.length &&
              memcmp(back, p1_first.start, length) == 0,
          "and back");
}

static uint8_t session[BERRYTICK_SESSION_BYTES];
static uint8_t session_before[BERRYTICK_SESSION_BYTES];

/* What the session's readers tell of a name, of a side and of all. */
static int byte_is(size_t name, uint32_t expected)
{
    uint32_t byte = UNTOUCHED;
    return berrytick_session_byte(session, name, &byte) == 0 && byte == expected;
}

static int file_is(size_t side, struct bytes expected)
{
    uint8_t file[BERRYTICK_SESSION_FILE_BYTES];
    uint32_t length = UNTOUCHED;
    memset(file, FILLED, sizeof file);
    return berrytick_session_file(session, side, file, &length) == 0 && length == expected.length &&
           (length == 0 || memcmp(file, expected.start, length) == 0) && all_are(file + length, sizeof file - length, FILLED);
}

static int holds(uint32_t names, uint32_t roles, struct bytes expected)
{
    uint8_t signature[BERRYTICK_SESSION_SIGNATURE_BYTES];
    uint32_t counts[2] = {UNTOUCHED, UNTOUCHED};
    uint32_t length = UNTOUCHED;
    memset(signature, FILLED, sizeof signature);
    return berrytick_session_counts(session, counts) == 0 && counts[0] == names && counts[1] == roles &&
           berrytick_session_signature(session, signature, &length) == 0 && length == expected.length &&
           (length == 0 || memcmp(signature, expected.start, length) == 0) &&
           all_are(signature + length, sizeof signature - length, FILLED);
}

static void try_session_start(void)
{
    const struct bytes axiom = BYTES(0, 2, 2, 1, 2);
    refill();
    memset(session, FILLED, sizeof session);
    check(berrytick_session_start(PASS(p1_first), PASS(p1_second), PASS(p1_signature), session, work, 99) == 32 * 256,
          "too little memory to start a session");
    check(berrytick_session_start(PASS(p1_first), output, 8, PASS(p1_signature), session, work, sizeof work) == 2 * 256 + 2,
          "a session of no release");
    check(berrytick_session_add(session, 1, PASS(axiom), work, sizeof work) == 46 * 256, "no session is edited");
    check(berrytick_session_withdraw(session, 2, 0, work, sizeof work) == 46 * 256, "none at all");
    check(all_are(session, sizeof session, FILLED) && work_is_left(0), "a refused start or step changes nothing");
    check(holds(0, 0, none) && file_is(1, none) && byte_is(0, 0), "no session has nothing to tell");
    check(berrytick_session_start(PASS(p1_first), PASS(p1_second), PASS(p1_signature), session, work, sizeof work) == 0, "P1 as a session");
    check(work_is_left(needed(4)), "P1 as a session: work memory");
    check(holds(4, 0, p1_signature), "its names, roles and signature");
    check(file_is(1, p1_first) && file_is(2, p1_second), "its files");
    check(file_is(0, none) && file_is(257, none), "no such side");
    check(byte_is(0, 3) && byte_is(1, 0) && byte_is(2, 2) && byte_is(3, 0), "its result");
    check(byte_is(4, 0) && byte_is(SIZE_MAX, 0), "no such name");
}

/* The axiom of name 0 by the first release of P1 is withdrawn and added again. */
static void try_session_steps(void)
{
    const struct bytes axiom = BYTES(0, 2, 2, 1, 2);
    const struct bytes no_axiom = BYTES(ELT1, 4, 0, 0);
    memcpy(session_before, session, sizeof session);
    refill();
    check(berrytick_session_add(session, 257, PASS(axiom), work, sizeof work) == 46 * 256, "an axiom for no side");
    check(berrytick_session_add(session, 2, axiom.start, 4, work, sizeof work) == 7 * 256 + 2, "an axiom that is cut short");
    check(berrytick_session_add(session, 1, PASS(axiom), work, sizeof work) == 47 * 256 + 1, "name 0 has an axiom");
    check(berrytick_session_withdraw(session, 2, 4, work, sizeof work) == 9 * 256 + 2, "no such name is withdrawn");
    check(berrytick_session_withdraw(session, 2, 1, work, sizeof work) == 48 * 256 + 2, "name 1 has no axiom");
    check(berrytick_session_withdraw(session, 1, 0, work, 99) == 32 * 256, "too little memory for a step");
    check(memcmp(session, session_before, sizeof session) == 0 && work_is_left(0), "a refused step changes nothing");
    check(berrytick_session_withdraw(session, 1, 0, work, sizeof work) == 0 && work_is_left(needed(4)), "the axiom is withdrawn");
    check(file_is(1, no_axiom) && file_is(2, p1_second), "none is left on its side");
    check(byte_is(0, 0) && byte_is(2, 0), "and nothing is lost");
    refill();
    check(berrytick_session_add(session, 1, PASS(axiom), work, sizeof work) == 0 && work_is_left(needed(4)), "it is added again");
    check(memcmp(session, session_before, sizeof session) == 0, "which restores every byte");
}

/* Every slice empty, as NULL and as a pointer: the same answers. */
static void try_empty(void)
{
    const struct bytes no_names = BYTES(ELT1, 0, 0, 0);
    const struct bytes one_role = BYTES(ELT1, 0, 1, 0);
    const struct bytes one = BYTES(1);
    uint32_t counts[3], place[3], length, answer;
    check(berrytick_check(NULL, 0, counts) == 1 * 256 + 1, "NULL is checked");
    check(berrytick_ask(NULL, 0, NULL, 0, NULL, 0, &answer, NULL, 0) == 1 * 256 + 1, "NULL is asked");
    check(berrytick_ask(PASS(p10), NULL, 0, PASS(a), &answer, work, sizeof work) == 19 * 256 + 1, "a concept that is NULL");
    check(berrytick_ask(PASS(p10), PASS(a), NULL, 0, &answer, work, sizeof work) == 19 * 256 + 2, "another");
    check(berrytick_ask(PASS(p10), PASS(a), PASS(a), &answer, NULL, 0) == 32 * 256, "work memory that is NULL for a question");
    check(berrytick_show(NULL, 0, NULL, 0, 1, 0, place) == 0 && place_is(place, 1, 0, 0), "NULL is shown");
    check(berrytick_compare(NULL, 0, NULL, 0, NULL, 0, NULL, 0, NULL, 0, NULL, 0) == 1 * 256 + 1, "NULL is compared");
    check(berrytick_compare(PASS(p1_first), NULL, 0, NULL, 0, NULL, 0, NULL, 0, NULL, 0) == 1 * 256 + 2, "with NULL");
    check(berrytick_compare(PASS(p1_first), PASS(p1_second), NULL, 0, NULL, 0, NULL, 0, NULL, 0) == 17 * 256, "over NULL");
    check(berrytick_compare(PASS(p1_first), PASS(p1_second), PASS(p1_signature), NULL, 0, NULL, 0, NULL, 0) == 31 * 256, "to NULL");
    check(berrytick_compare(PASS(one_role), PASS(one_role), PASS(one), NULL, 0, NULL, 0, NULL, 0) == 50 * 256, "role pairs to NULL");
    check(berrytick_compare(PASS(no_names), PASS(no_names), NULL, 0, NULL, 0, NULL, 0, NULL, 0) == 32 * 256, "in NULL");
    check(berrytick_compare(PASS(no_names), PASS(no_names), NULL, 0, NULL, 0, NULL, 0, work, sizeof work) == 0, "no names, no roles");
    check(berrytick_compare_branches(NULL, 0, NULL, 0, NULL, 0, 0, 0, NULL, 0, NULL, 0) == 1 * 256 + 1, "a sheet of NULL");
    check(berrytick_compare_branches(PASS(p1_first), PASS(p1_second), NULL, 0, 0, BERRYTICK_ROUND_DOWN, work, sizeof work, NULL, 0) == 0,
          "a sheet of no branches");
    check(berrytick_report(NULL, 0, NULL, 0, NULL, 0, NULL, 0, &length, NULL, 0) == 33 * 256, "a report to NULL");
    check(berrytick_report(NULL, 0, NULL, 0, NULL, 0, output, sizeof output, &length, NULL, 0) == 1 * 256 + 1, "a report of NULL");
    check(berrytick_show_concept(NULL, 0, NULL, 0, NULL, 0, 0, 1, NULL, 0, &length, NULL, 0) == 1 * 256 + 1, "a concept of NULL");
    check(berrytick_show_concept(PASS(p1_first), PASS(p1_second), PASS(p1_signature), 0, 1, NULL, 0, &length, work, sizeof work) ==
              44 * 256,
          "a concept to NULL");
    check(berrytick_check_concept(NULL, 0, NULL, 0, NULL, 0, 0, 1, NULL, 0, &answer, NULL, 0) == 1 * 256 + 1, "a check of NULL");
    check(berrytick_check_concept(PASS(p1_first), PASS(p1_second), PASS(p1_signature), 0, 1, NULL, 0, &answer, work, sizeof work) == 0 &&
              answer == 0,
          "no rows");
    check(berrytick_session_start(NULL, 0, NULL, 0, NULL, 0, session, NULL, 0) == 1 * 256 + 1, "a session of NULL");
    check(berrytick_session_start(PASS(no_names), PASS(no_names), NULL, 0, session, NULL, 0) == 32 * 256, "in NULL");
    check(berrytick_session_start(PASS(no_names), PASS(no_names), NULL, 0, session, work, sizeof work) == 0, "of no names, no roles");
    check(berrytick_session_add(session, 1, NULL, 0, work, sizeof work) == 7 * 256 + 1, "NULL is added");
    check(berrytick_page_length(NULL, 0, &length) == 0 && length == 0, "the length of the page of NULL");
    check(berrytick_page(NULL, 0, NULL, 0, &length) == 0 && length == 0, "a page of NULL to NULL");
    check(berrytick_page(PASS(p1_signature), NULL, 0, &length) == 51 * 256, "a page to NULL");
    check(berrytick_practice(0, 0, 0, NULL, 0, &length) == 52 * 256, "a practice release to NULL");
    check(berrytick_rewrite(NULL, 0, 1, NULL, 0, &length) == 1 * 256 + 1, "NULL is rewritten");
    check(berrytick_rewrite(PASS(p1_first), 1, NULL, 0, &length) == 41 * 256, "to NULL");
}

int main(void)
{
    try_comparisons();
    try_question();
    try_check();
    try_work_length();
    try_show();
    try_sheet();
    try_report();
    try_concepts();
    try_page();
    try_practice();
    try_rewrite();
    try_session_start();
    try_session_steps();
    try_empty();
    printf("c: %u checks, %u failed\n", checks, failures);
    return failures != 0;
}
