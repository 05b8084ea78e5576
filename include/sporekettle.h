/* Sporekettle for C: marks proof tables, fills their goals, tests them. x86-64.
 *
 * Link with crates/export/out/libexport.a, which `tools/library` writes once it has proved it. That needs nothing else but memset.
 * The functions keep nothing between calls, and ask for no memory: every room is the caller's. docs/FORMAT.md has the table's format, docs/RULES.md the rules.
 *
 * What is proved of each function is its contract in crates/export/src/lib.rt. What a caller must see to, since no contract can:
 *
 *   - Each pointer is not null, not even for a length of 0, and so many bytes behind it belong to the caller; no length is above SIZE_MAX / 2.
 *   - No room shares a byte with another room or with a table. Two tables may share bytes: they are only read.
 *   - Nothing else writes to the tables, and nothing else reads or writes the rooms, until the call is back. (Calls in several threads, each with rooms of
 *     its own, do not disturb each other.)
 *
 * That is all. Any bytes may stand in a table and in a room, and any length may be given: what is too short or wrong is refused.
 */
#ifndef SPOREKETTLE_H
#define SPOREKETTLE_H

#include <stddef.h>
#include <stdint.h>

#ifdef __cplusplus
extern "C" {
#endif

/* THE ROOMS that a call wants, in bytes. A longer room is fine: what lies behind these bytes is never touched. A shorter one is refusal 1.
 * Rooms need not be cleared before a call. After a refusal these bytes are zeros, as far as the room goes. After an acceptance the work room is zeros, and so
 * is the unused rest of each other room. */
#define SPOREKETTLE_TREE 16384
#define SPOREKETTLE_GOALS 4096
#define SPOREKETTLE_PROPOSITIONS 49152
#define SPOREKETTLE_WORK 65536
#define SPOREKETTLE_EDITED 49152   /* sporekettle_fill only */
#define SPOREKETTLE_TEST_WORK 2048 /* the work room of the two tests */

/* THE STACK that a call may need at most, in bytes. Calls nest with the depth of a term, which is at most 64. tests/c takes the script that nests deepest and
 * fails if it needs more than this; so it is measured and tested, but not proved. */
#define SPOREKETTLE_STACK 262144

/* THE ANSWER, 16 bytes at the beginning of the answer room. Numbers of 16 bits stand low byte first.
 *
 *   byte  0   SPOREKETTLE_ACCEPTED or SPOREKETTLE_REFUSED
 *   byte  1   a refusal's number
 *   bytes 2   a refusal's place
 *   bytes 4   the table that the place is in: one of the three below; 0 but for sporekettle_fill
 *   bytes 6   0
 *   bytes 8   an acceptance's count of tree records
 *   bytes 10  of goals
 *   bytes 12  of serials made
 *   bytes 14  of propositions made
 *
 * A refusal has no counts and an acceptance no number, place or table: they are 0. So are the counts of the two tests. */
#define SPOREKETTLE_ANSWER 16

#define SPOREKETTLE_ACCEPTED 0
#define SPOREKETTLE_REFUSED 1

#define SPOREKETTLE_OLD 0
#define SPOREKETTLE_FILLING 1
#define SPOREKETTLE_EDIT 2

/* WHAT A CALL RETURNS: the answer is written; or the answer room is shorter than SPOREKETTLE_ANSWER, and nothing was written to any room. */
#define SPOREKETTLE_ANSWERED 0
#define SPOREKETTLE_NO_ROOM 1

/* A REFUSAL'S NUMBER, what its place counts, and why. A record is one of the file, propositions counted before terms, and the lowest guilty one; place 0 of 5
 * can be the expected field. Where no word stands, the place is 0. Tests of a table come before the rules, and the first refusal is the answer.
 *
 * written by tools/words: refusals
 *    1               a room that was lent is too short
 *    2               the file does not begin as a table does: it has fewer than 16 bytes, or its mark, its version or one of the header's zero bytes
 *                    is wrong
 *    3               the header counts more propositions or terms than a table may have, or no term; or the file is not as long as its counts say
 *    4  record       the record has a kind, a tag or a parameter count that does not exist, or something stands in a field that its kind does not use
 *    5  record       a link of the record leads nowhere or the wrong way, or the record is not named exactly once, or the header's expected field is
 *                    wrong
 *    6  record       the proposition is higher than 32, or the term stands deeper than 64
 *    7  proposition  the proposition to prove has a parameter that no quantifier binds
 *   10  term         a name that is used here is not known
 *   11  term         a term of this kind cannot prove what is wanted here
 *   12  term         the head proves the wrong thing: a let takes an Exists apart, a case an Or
 *   13  term         an object is wanted here and this term gives none, or the witness of an Exists is not a plain name
 *   14  term         the type here is not the one that is wanted
 *   15  term         the ascription is not the type that is wanted
 *   16  term         the let's witness stands in the proposition that is wanted (never given)
 *   20  term         a name that is used here is not known
 *   21  term         the type of this function has to be found, so its parameter needs an annotation
 *   22  term         the wrong thing is taken apart: a projection needs an And, a let an Exists, a case an Or, an application an Impl or a ForAll
 *   23  term         the second component of a pair must prove a proposition, and it is an object
 *   24  term         this is an object and has to prove a proposition, or a ForAll is applied to something other than a plain name
 *   25  term         the type of this term has to be found, and the term does not tell it; an ascription around it would
 *   26  term         the two arms of the case prove different propositions
 *   27  term         what the let's body proves speaks of the let's own witness
 *   30  term         the rule of this term would make more than 2,048 propositions in one run
 *   31               the old table has no goal of that number
 * end of tools/words */

/* THE TREE ROOM after an acceptance: 16 bytes a record, each before its premises.
 *
 * written by tools/words: rules
 *   byte  0   the rule: 0 Ident, 1 TrueIntro, 2 AndIntro, 3 AndElimFst, 4 AndElimSnd, 5 ImplIntro, 6 ImplElim, 7 OrIntroFst, 8 OrIntroSnd, 9 OrElim,
 *             10 FalsumElim, 11 ForAllIntro, 12 ForAllElim, 13 ExistsIntro, 14 ExistsElim, 15 Sorry, 16 AlphaEq
 * end of tools/words
 *   byte  1   what it concludes: 0 a proposition, 1 that an identifier is of a datatype
 *   bytes 2   the term
 *   bytes 4   the proposition's number in the propositions room, or the datatype
 *   bytes 6   a serial, or SPOREKETTLE_NO_SERIAL
 *   bytes 8   a second one, or SPOREKETTLE_NO_SERIAL
 *   bytes 10  how many premises
 *   bytes 12  four zeros */
#define SPOREKETTLE_TREE_RECORD 16
#define SPOREKETTLE_NO_SERIAL 65535

/* THE GOALS ROOM: 8 bytes a goal.
 *
 *   bytes 0   the Sorry's term
 *   bytes 2   the proposition that is wanted
 *   bytes 4   how many entries are known there
 *   bytes 6   0 */
#define SPOREKETTLE_GOAL_RECORD 8

/* THE PROPOSITIONS ROOM: 16 bytes a record as in the table, the table's first, then the made ones. In bytes 4 of an atom stand what its parameters are,
 * in two bits each from the lowest up: 0 a free name, 1 a serial, 2 bound. Of a bound one the atom has the number of quantifiers that stand between. */

/* The mark of a table: it holds its root to its expected proposition. */
uint32_t sporekettle_check(const uint8_t *table, size_t table_length,
                           uint8_t *tree, size_t tree_length,
                           uint8_t *goals, size_t goals_length,
                           uint8_t *propositions, size_t propositions_length,
                           uint8_t *work, size_t work_length,
                           uint8_t *answer, size_t answer_length);

/* Fills goal number `goal` of a table, from 0. Accepted: tree and goals are those of the filling alone, the propositions all that were made until
 * the filling was done, and the edited room has the edited table, whose length is 16 and 16 for each proposition and term that its header counts.
 * From the edited table's tests on, a refusal's place is in that table. */
uint32_t sporekettle_fill(const uint8_t *old, size_t old_length,
                          uint16_t goal,
                          const uint8_t *filling, size_t filling_length,
                          uint8_t *tree, size_t tree_length,
                          uint8_t *goals, size_t goals_length,
                          uint8_t *propositions, size_t propositions_length,
                          uint8_t *work, size_t work_length,
                          uint8_t *edited, size_t edited_length,
                          uint8_t *answer, size_t answer_length);

/* Tests 1 to 7 of a table to check. The work room is one of SPOREKETTLE_TEST_WORK bytes. */
uint32_t sporekettle_test_table(const uint8_t *table, size_t table_length,
                                uint8_t *work, size_t work_length,
                                uint8_t *answer, size_t answer_length);

/* Tests 1 to 6 of a filling. */
uint32_t sporekettle_test_filling(const uint8_t *filling, size_t filling_length,
                                  uint8_t *work, size_t work_length,
                                  uint8_t *answer, size_t answer_length);

#ifdef __cplusplus
}
#endif

#endif
