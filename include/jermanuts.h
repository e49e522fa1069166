/* Jermanuts: nested messages rewritten by rule table, one symbol at a time.
 *
 * Link with libface.a. The library keeps nothing between calls, allocates nothing, calls nothing
 * but memcpy and memset, and touches nothing but what it is lent. Every call takes any bytes: a bad
 * table, or a session that is not sound, is refused by its number.
 *
 * Of all functions:
 * - Each answers one of enum jermanuts_number: 0 where it did what was asked, else a refusal.
 * - A refusal writes nothing to session and out, and sets *count, *states to 0. A refused symbol
 *   was not taken: another may be tried.
 * - What is written stands at the start of out; nothing behind the first *count bytes is changed.
 * - No pointer may be null, even where its length is 0. states, which and count are aligned as
 *   their types ask; the others need no alignment.
 * - What a call writes (session, out, work, states, which, count) may not overlap anything else
 *   that the call is lent. What it only reads (file, first, second, finish's session) may.
 * - Calls may run at the same time as long as none writes what another is lent.
 */
#ifndef JERMANUTS_H
#define JERMANUTS_H

#include <stddef.h>
#include <stdint.h>

#ifdef __cplusplus
extern "C" {
#endif

#define JERMANUTS_SESSION 33218 /* bytes of a session */
#define JERMANUTS_WORK 49920    /* bytes of the room that jermanuts_step_in works in */
#define JERMANUTS_SHELF 5890    /* bytes of each of the two shelves of jermanuts_join_in */
#define JERMANUTS_TAPE 4128     /* bytes of its tape */
#define JERMANUTS_JOIN_WORK (2 * JERMANUTS_SHELF + JERMANUTS_TAPE) /* bytes of all three */
#define JERMANUTS_OUT 1024      /* bytes of out that suffice for every step and finish */
#define JERMANUTS_FILE 6444     /* bytes of the longest rule file, which suffice for every join */

/* The numbers given back, each exactly in its case; where several apply, the first that the
 * function's comment lists. */
enum jermanuts_number {
    JERMANUTS_TAKEN = 0,          /* none below */
    JERMANUTS_BAD_TABLE = 1,      /* the rule file breaks a rule */
    JERMANUTS_BAD_SESSION = 2,    /* the session is not sound for this table */
    JERMANUTS_UNKNOWN_SYMBOL = 3, /* the symbol has class 0 */
    JERMANUTS_UNOPENED = 4,       /* a return at depth 0 */
    JERMANUTS_TOO_DEEP = 5,       /* a call at the depth cap */
    JERMANUTS_NO_RUN = 6,         /* no run can take the symbol */
    JERMANUTS_CROWDED = 7,        /* more than 64 links would follow */
    JERMANUTS_CONFLICT = 8,       /* two runs would have one trail and different outputs */
    JERMANUTS_BACKLOG = 9,        /* after sending, some run would have more waiting than the cap */
    JERMANUTS_NO_ROOM = 10,       /* out is too short for what must be written */
    JERMANUTS_UNCLOSED = 11,      /* finish above depth 0 */
    JERMANUTS_NOT_FINAL = 12,     /* finish, no run in a final state */
    JERMANUTS_AMBIGUOUS = 13,     /* finish, two accepting runs differ in output */
    JERMANUTS_NOT_NESTED = 14,    /* join, words of the first don't nest by the second's classes */
    JERMANUTS_TOO_LARGE = 15      /* join, a word of the first or the joined table over a limit */
};

/* Looks whether the file_len bytes of file keep every rule of the rule file. Gives 0 or 1. */
uint32_t jermanuts_check(const uint8_t *file, size_t file_len);

/* Makes session (JERMANUTS_SESSION bytes, whatever they hold) the fresh session of a table and sets
 * *states to the number of its starting states. Gives 0 or 1. */
uint32_t jermanuts_begin(const uint8_t *file, size_t file_len, uint8_t *session, uint32_t *states);

/* Takes one symbol: writes to out what all runs agree on and was not sent before, sets *count to
 * its length, and moves session (JERMANUTS_SESSION bytes) on. Gives 0, or the first that applies of
 * 1 to 10. Uses about 52 KB of stack, where jermanuts_step_in uses 3. */
uint32_t jermanuts_step(const uint8_t *file, size_t file_len, uint8_t *session, uint8_t symbol,
                        uint8_t *out, size_t out_len, size_t *count);

/* The same in a room that is lent: work has JERMANUTS_WORK bytes. What they hold before doesn't
 * matter; what they hold afterwards, even after a refusal, is not said. */
uint32_t jermanuts_step_in(const uint8_t *file, size_t file_len, uint8_t *session, uint8_t symbol,
                           uint8_t *out, size_t out_len, size_t *count, uint8_t *work);

/* Ends a message: writes to out what still waits of the runs that accept and sets *count to its
 * length. session (JERMANUTS_SESSION bytes) is only read, so asking twice gives the same. Gives 0,
 * or the first that applies of 1, 2, 11, 12, 13, 10. */
uint32_t jermanuts_finish(const uint8_t *file, size_t file_len, const uint8_t *session,
                          uint8_t *out, size_t out_len, size_t *count);

/* Joins two tables: writes to out the rule file of a table that allows exactly what the second
 * allows on some output of the first, and sets *count to its length. Gives 0, or the first that
 * applies of 1, 14, 15, 10. *which is 1 or 2, the bad table, where 1 is given (the first is looked
 * at first), else 0. Uses about 23 KB of stack, where jermanuts_join_in uses 7; takes long where
 * the second table branches much. */
uint32_t jermanuts_join(const uint8_t *first, size_t first_len, const uint8_t *second,
                        size_t second_len, uint8_t *out, size_t out_len, uint32_t *which,
                        size_t *count);

/* The same in a room that is lent: marks and rows have JERMANUTS_SHELF bytes each, tape has
 * JERMANUTS_TAPE, and no two of them overlap (JERMANUTS_JOIN_WORK bytes can be cut into the three).
 * What they hold before doesn't matter; what they hold afterwards is not said. */
uint32_t jermanuts_join_in(const uint8_t *first, size_t first_len, const uint8_t *second,
                           size_t second_len, uint8_t *out, size_t out_len, uint32_t *which,
                           size_t *count, uint8_t *marks, uint8_t *rows, uint8_t *tape);

#ifdef __cplusplus
}
#endif

#endif
