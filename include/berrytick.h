/* Berrytick: the meaning of two releases of a terminology, compared over a signature.
 *
 * These are the calls of target/staticlib/libexported.a, which `tools/library` writes, for x86-64 Linux. Each is proved to keep its
 * promise. docs/FORMAT.md has the files, signatures and concepts, and every refusal with its number.
 *
 * One convention. A call returns 0, or number * 256 + side of a refusal. What it answers it writes to what it is lent for that: numbers of 32
 * bits, bytes, rows. A refusal changes nothing that is lent. No call wants anything checked before it: files, signatures, concepts, memory
 * and numbers may have any content and length.
 *
 * Lent memory. A slice passes as the pointer to its first element and the number of its elements; an empty one may be NULL. A single number,
 * an array of two or three, a session and what is copied out of one pass as a pointer alone, which is not NULL. What a call may write to must
 * not overlap anything else that it is lent; what it only reads may. A call that is lent work memory and answers leaves the first bytes zero, as
 * many as it needs (berrytick_work_length, and more to check a concept), and the others, as all that is lent beyond an answer, as they were. On
 * entry it may hold anything.
 *
 * Nothing is kept between calls, and none allocates memory. Any number of threads may call at the same time, each with memory of its own to
 * write to. A call uses less than 72 KiB of stack, whatever it is lent: measured, 72,776 bytes for a session's start, 48,712 for a step, at most
 * 34,568 for a comparison, a sheet, a report or a concept, 28,904 for a question, 20,120 for a shown axiom, 16,936 for what reads a session and
 * 11,784 for a check or a rewriting.
 */
#ifndef BERRYTICK_H
#define BERRYTICK_H

#include <stddef.h>
#include <stdint.h>

#ifdef __cplusplus
extern "C" {
#endif

/* The two parts of the code of a refusal. The side is 1 or 2 for the release or concept concerned, else 0. */
#define BERRYTICK_NUMBER(code) ((code) / 256)
#define BERRYTICK_SIDE(code) ((code) % 256)

/* The most names and roles of a release, the bytes of the longest release, those of the longest file that a release is rewritten as, those of
 * the longest report and of the longest page. */
#define BERRYTICK_NAMES 1023
#define BERRYTICK_ROLES 32
#define BERRYTICK_RELEASE_BYTES 37349
#define BERRYTICK_REWRITTEN_BYTES 36838
#define BERRYTICK_REPORT_BYTES 6202
#define BERRYTICK_PAGE_BYTES 16645

/* The bytes of the longest practice release. */
#define BERRYTICK_PRACTICE_BYTES 897

/* The bytes of a session, and those of the longest file and of the longest signature that one can hold. */
#define BERRYTICK_SESSION_BYTES 5136
#define BERRYTICK_SESSION_FILE_BYTES 2421
#define BERRYTICK_SESSION_SIGNATURE_BYTES 159

/* Checks a release: n, m and a, its counts of names, roles and axioms, in this order.
 * Refused: 1 to 15, and 49 where pairs of roles do not rise; side 1. */
uint32_t berrytick_check(const uint8_t *file, size_t file_length, uint32_t counts[3]);

/* The bytes of work memory that releases of this many names need, 4 * (names + 1) * (names + 1).
 * Refused: 4, side 0, where there are more names than 1,023. */
uint32_t berrytick_work_length(size_t names, uint32_t *length);

/* Asks how two concepts lie by a release: 0 where neither lies below the other, 1 where only `below` lies below `above`, 2 where only `above`
 * lies below `below`, 3 where both do. The low bit is the yes of before, when `below` below `above` alone was asked: that 1 is now 1 or 3.
 * Refused: 1 to 15 and 49, side 1; 19, side 1 for `below` and 2 for `above`; 32. */
uint32_t berrytick_ask(const uint8_t *file, size_t file_length,
                       const uint8_t *below, size_t below_length,
                       const uint8_t *above, size_t above_length,
                       uint32_t *answer,
                       uint8_t *work, size_t work_length);

/* Shows the axiom of a name by the release on a side, 1 or 2: the side of the file that holds it, where it starts there, and how many bytes
 * it has. Never refuses: where the name has no axiom, the name or the side is out of range, or either release is not accepted, the part
 * is empty, at the start of the first file: 1, 0, 0. */
uint32_t berrytick_show(const uint8_t *first, size_t first_length,
                        const uint8_t *second, size_t second_length,
                        size_t side, size_t name,
                        uint32_t place[3]);

/* Compares two releases over a signature. A byte of the result for each name: 0 unchanged or not chosen, 1 changed in what follows from it
 * (left), 2 changed in what it follows from (right), 3 both. A byte of the role result for each two of the m roles, that of r and s at
 * r * m + s: 1 where both are chosen and r lies under s by the first release and not by the second, else 0. A release without pairs of roles
 * reports none. Releases are equal over a signature where both orders report no name and no pair. Bytes beyond n and m * m stay as they were.
 * Refused: 1 to 15 and 49 with the release's side; 16, 17, 18, 31; 50, where the role result is shorter than m * m; 32. */
uint32_t berrytick_compare(const uint8_t *first, size_t first_length,
                           const uint8_t *second, size_t second_length,
                           const uint8_t *signature, size_t signature_length,
                           uint8_t *result, size_t result_length,
                           uint8_t *role_result, size_t role_result_length,
                           uint8_t *work, size_t work_length);

/* What a comparison tells of one branch: the names chosen, those reported on the left and on the right, and the share of names reported, in
 * thousandths of those chosen, rounded by a rule. */
struct berrytick_row {
    uint32_t chosen;
    uint32_t left;
    uint32_t right;
    uint32_t share;
};

/* The rules for the share: down, and to the nearest, with an exact half to the even neighbour. */
#define BERRYTICK_ROUND_DOWN 1
#define BERRYTICK_ROUND_TO_NEAREST 2

/* Compares two releases over `count` signatures, which stand one after another: a row for each, with a share by the rule of this number. Rows
 * tell of names only.
 * Refused: 1 to 15 and 49 with the release's side; 16, 53, 42, 17, 18, 43, 32. */
uint32_t berrytick_compare_branches(const uint8_t *first, size_t first_length,
                                    const uint8_t *second, size_t second_length,
                                    const uint8_t *signatures, size_t signatures_length,
                                    size_t count, size_t rule,
                                    uint8_t *work, size_t work_length,
                                    struct berrytick_row *rows, size_t rows_length);

/* Compares two releases over a signature and writes the report: its length. It tells of names only: of releases with pairs of roles that
 * report no name in either order, berrytick_compare tells whether they are equal. The text is ASCII, and no byte 0 follows it.
 * Refused: 33, before all others, where the output is shorter than the longest report, BERRYTICK_REPORT_BYTES; 1 to 15 and 49 with the release's
 * side; 16, 17, 18, 32. */
uint32_t berrytick_report(const uint8_t *first, size_t first_length,
                          const uint8_t *second, size_t second_length,
                          const uint8_t *signature, size_t signature_length,
                          uint8_t *output, size_t output_length,
                          uint32_t *length,
                          uint8_t *work, size_t work_length);

/* Tells how long the page of a result is, at most BERRYTICK_PAGE_BYTES; 0 where no name is reported.
 * Refused: 51, where the result has more than 1,023 bytes or one above 3. */
uint32_t berrytick_page_length(const uint8_t *result, size_t result_length, uint32_t *length);

/* Writes the page of a result, for the desk wall: its length. The names that the result reports stand four to a line of 64 characters and a
 * newline, and byte 12 after each 50th line (docs/FORMAT.md, "A page"). The result is all that is lent: where it has more bytes than there are
 * names, as one lent to berrytick_compare may have, its length is passed as n.
 * Refused: 51, where the result has more than 1,023 bytes or one above 3, or the output is shorter than the page. */
uint32_t berrytick_page(const uint8_t *result, size_t result_length,
                        uint8_t *output, size_t output_length,
                        uint32_t *length);

/* A concept as rows. A row is three numbers, row i those from 3 * i on, rows counted from 0:
 *   0 0 0    everything
 *   1 a 0    the name a
 *   2 i j    the conjunction of what the earlier rows i and j are
 *   3 r i    "some r" of what the earlier row i is, for a role r
 * A row may be used any number of times. The last row is the concept; numbers left over after the last whole row are no row. */

/* The numbers that are lent to show a concept of releases with this many names: those of (names + 2) * (names + 2) * (names + 2) rows. */
#define BERRYTICK_CONCEPT_NUMBERS(names) (3 * ((size_t)(names) + 2) * ((size_t)(names) + 2) * ((size_t)(names) + 2))

/* Shows a concept for a name that a comparison reports on a side, 1 (left) or 2 (right): over the names and roles of the signature alone, it
 * lies above the name (left), or below it (right), by the first release and not by the second. The count is that of the rows written; it is 0
 * exactly where the name is not reported on that side, where there is no such name or no such side. Numbers after these rows stay as they were.
 * Refused: 1 to 15 and 49 with the release's side; 16, 17, 18, 32; 44, where fewer numbers are lent than BERRYTICK_CONCEPT_NUMBERS of the names. */
uint32_t berrytick_show_concept(const uint8_t *first, size_t first_length,
                                const uint8_t *second, size_t second_length,
                                const uint8_t *signature, size_t signature_length,
                                size_t name, size_t side,
                                uint32_t *rows, size_t rows_length,
                                uint32_t *count,
                                uint8_t *work, size_t work_length);

/* Checks rows from any editor for a name and a side: 1 where the side is 1 or 2, the name is chosen, there is a row, each row, used or not, is
 * as above and keeps to the signature, and the last shows that difference; else 0. What was shown, and no row more, is answered 1. For k rows
 * and releases of n names this needs 2 * (n + 1) * k bytes of work memory more than berrytick_work_length tells.
 * Refused: 1 to 15 and 49 with the release's side; 16, 17, 18, 32. */
uint32_t berrytick_check_concept(const uint8_t *first, size_t first_length,
                                 const uint8_t *second, size_t second_length,
                                 const uint8_t *signature, size_t signature_length,
                                 size_t name, size_t side,
                                 const uint32_t *rows, size_t rows_length,
                                 uint32_t *answer,
                                 uint8_t *work, size_t work_length);

/* Writes a release of version 1 or 2 as a file of the wanted version, 1 or 2: its length, at most BERRYTICK_REWRITTEN_BYTES.
 * Refused: 3, side 0, before all others, where the wanted version is neither 1 nor 2; 1 to 15, side 1, 3 for a release of version 3 too;
 * 40, side 1; 41. */
uint32_t berrytick_rewrite(const uint8_t *file, size_t file_length,
                           size_t wanted,
                           uint8_t *output, size_t output_length,
                           uint32_t *length);

/* Writes a practice release as a file of version 1: its length, at most BERRYTICK_PRACTICE_BYTES. The same seed and the same numbers of names and
 * roles give the same file on each machine and at each call; it is accepted, with these numbers.
 * Refused: 4, where there are more names than 127; 5, where there are more roles than 32; 52, where the output is shorter than the file; all with
 * side 0. */
uint32_t berrytick_practice(uint32_t seed, size_t names, size_t roles,
                            uint8_t *output, size_t output_length,
                            uint32_t *length);

/* A session: two releases of version 1, a signature and the result of their comparison, in bytes of a fixed layout (docs/FORMAT.md, "A session").
 * It may be copied, kept and filled by hand, since no call supposes anything of it. A step adds an axiom to a release or withdraws one, and
 * compares again, whatever result bytes stood there. A refused start or step changes no byte of it. */

/* Starts a session from two releases of version 1 and a signature: writes all of its bytes.
 * Refused: 1 to 15 with the release's side, 3 for any other version than 1; 16, 17, 18, 32. */
uint32_t berrytick_session_start(const uint8_t *first, size_t first_length,
                                 const uint8_t *second, size_t second_length,
                                 const uint8_t *signature, size_t signature_length,
                                 uint8_t session[BERRYTICK_SESSION_BYTES],
                                 uint8_t *work, size_t work_length);

/* Adds an axiom, its bytes as they stand in a file, to the release on a side, 1 or 2.
 * Refused: 46, side 0, where there is no such side or the session cannot be edited; 7 to 9 and 11 to 14, then 47, where the name has an axiom, then
 * 15, all with this side; 32. */
uint32_t berrytick_session_add(uint8_t session[BERRYTICK_SESSION_BYTES],
                               size_t side,
                               const uint8_t *axiom, size_t axiom_length,
                               uint8_t *work, size_t work_length);

/* Withdraws the axiom of a name from the release on a side.
 * Refused: 46, side 0; 9, then 48, where the name has no axiom, both with this side; 32. */
uint32_t berrytick_session_withdraw(uint8_t session[BERRYTICK_SESSION_BYTES],
                                    size_t side, size_t name,
                                    uint8_t *work, size_t work_length);

/* What a session holds. The four calls below never refuse: of bytes that are no session which can be edited they tell no names, no roles, empty
 * files and an empty signature. */

/* n and m, its counts of names and roles, in this order. */
uint32_t berrytick_session_counts(const uint8_t session[BERRYTICK_SESSION_BYTES],
                                  uint32_t counts[2]);

/* The result byte of a name, as in berrytick_compare; 0 where there is no such name. */
uint32_t berrytick_session_byte(const uint8_t session[BERRYTICK_SESSION_BYTES],
                                size_t name,
                                uint32_t *byte);

/* Copies the file held on a side to the start of the output: its length, 0 where there is no such side. */
uint32_t berrytick_session_file(const uint8_t session[BERRYTICK_SESSION_BYTES],
                                size_t side,
                                uint8_t output[BERRYTICK_SESSION_FILE_BYTES],
                                uint32_t *length);

/* Copies the signature's bytes to the start of the output: how many these are, n + m. */
uint32_t berrytick_session_signature(const uint8_t session[BERRYTICK_SESSION_BYTES],
                                     uint8_t output[BERRYTICK_SESSION_SIGNATURE_BYTES],
                                     uint32_t *length);

#ifdef __cplusplus
}
#endif

#endif
