/* The segment workflow checker for C: three functions of bytes and lengths that give one number.
 *
 * Link target/staticlib/libchecker.a, which `tools/staticlib` writes (x86-64 Linux). It needs memcpy and memset, nothing else.
 *
 * The functions take any bytes of any length and always return. They read the two files, write nothing that the caller can see,
 * allocate nothing and have no global state: calls in several threads do not disturb each other. A pointer may be NULL where its length is 0.
 * Their working buffers lie on the stack, which must have MACEPLATEAU_REACH_STACK bytes left, or MACEPLATEAU_ASK_STACK for a question of either kind.
 *
 * They return
 *
 *     0        never, no
 *     1        reached, yes
 *     100 + n  refused; n is
 *
 *       1  overlong    more bytes than allowed: 40,000 for a table, 309 for a target, 608 for a question, 400 for a question as text
 *       2  layout      a field or line not as the format has it, a line missing or too many
 *       3  size        a count in line 1 outside its range
 *       4  order       constants, or registers of one arc's lines 8, not rising
 *       5  range       another number outside its range, as an identifier above 4,294,967,295, or an unused field not 0
 *       6  crowded     a ninth condition
 *       7  no start    start conditions that no contents meet
 *       8  forward     a question's row that names row 0, itself or a later one
 *      11  grammar     a question as text that is not in the grammar, an empty one among them
 *      12  rows        a question as text that has more than 32 rows
 *
 * The table is judged before the other file, and each from its first line on; a text in the order 1, 11, 12, 5. The refusals 9 (buffer)
 * and 10 (no class) belong to other calls: these functions never return 109 or 110. Only a text gets 11 and 12.
 */
#ifndef MACEPLATEAU_H
#define MACEPLATEAU_H

#include <stddef.h>
#include <stdint.h>

/* Bytes of stack that suffice for every call. The buffers have the size that the table needs: reaching was seen to take 0.09 MB for a small table and 0.33 MB
 * for one at every limit, a question 0.05 MB and 4.2 MB; reading a text takes 0.05 MB where its brackets stand 400 deep, before the question is answered
 * (tests/c/measure). */
#define MACEPLATEAU_REACH_STACK ((size_t)2 << 20)
#define MACEPLATEAU_ASK_STACK ((size_t)5 << 20)

#ifdef __cplusplus
extern "C" {
#endif

/* Do runs of the table reach the target? */
uint32_t maceplateau_reach(const uint8_t *table, size_t table_length, const uint8_t *target, size_t target_length);

/* Does the question hold at every permitted start of the table? Where no step exists the segment stays: questions count one step there that changes
 * nothing. Reaching does not. */
uint32_t maceplateau_ask(const uint8_t *table, size_t table_length, const uint8_t *question, size_t question_length);

/* The same of a question as one line of text, as AG!(L3&r1=r2), without a byte 10 or 0 at its end:
 *
 *     question:  L number                                 the segment is at this place
 *                r number = r number                      two registers hold the same identifier
 *                r number = c number                      a register holds this constant
 *                ! question                               not; EX EG EF AX AG AF likewise
 *                ( question & question )                  and; | is or, > is implies
 *                E( question U question )                 until
 *     number:    one or two digits, the first not 0
 *
 * There are no blanks in a text. */
uint32_t maceplateau_ask_text(const uint8_t *table, size_t table_length, const uint8_t *text, size_t text_length);

#ifdef __cplusplus
}
#endif

#endif
