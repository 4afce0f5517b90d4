/*
 * Barfigol: checks a table of constraints, works its constraints out for one assignment, and translates it
 * into a table in which nothing is undefined. Link with libbarfigol.a or libbarfigol.so; pkg-config calls it
 * barfigol. The library is compiled for Linux on x86-64 and for nothing else.
 *
 * A table is a run of records of 12 bytes: mark (2 ASCII letters), kind, aux, x and y (signed 32 bits, low
 * byte first). Records are numbered from 0. TABLE.md, in docs/ or installed in share/doc/barfigol, describes the
 * table in full.
 *
 * What holds for every call:
 *   - Its answer, and every byte it writes, depend on its arguments and the bytes they lend, and on nothing
 *     else. It keeps nothing between calls, so calls may run side by side on different buffers.
 *   - It takes no memory from the heap, reads and writes no global, calls nothing of the caller's, and always
 *     returns. It needs stack, as much as is said below.
 *   - It reads the lent bytes of its const pointers and changes none of them.
 *   - A refusal writes no byte. A success writes from byte 0 of the output, `length` bytes in all, and leaves
 *     the bytes behind them as they were.
 *
 * What the caller owes, and nothing tests:
 *   - Each pointer is valid for the length given with it: bytes, or for an assignment numbers. An assignment
 *     is aligned for int32_t. A pointer with length 0 is not used, and may be NULL.
 *   - The output does not overlap anything that the call reads, and nothing else writes the lent bytes while
 *     the call runs.
 */
#ifndef BARFIGOL_H
#define BARFIGOL_H

#if !defined(__linux__) || !defined(__x86_64__) || defined(__ILP32__)
#error "barfigol is compiled for Linux on x86-64 alone"
#endif

#include <stdbool.h>
#include <stddef.h>
#include <stdint.h>

/*
 * The version of the library, of this header and of the command. Up to 0.1 node kind 10 (mod) was another
 * remainder; READINGS.md, beside TABLE.md, says what to look for in tables that were written for it.
 */
#define BARFIGOL_VERSION "0.2.0"
#define BARFIGOL_VERSION_MAJOR 0
#define BARFIGOL_VERSION_MINOR 2
#define BARFIGOL_VERSION_PATCH 0

#ifdef __cplusplus
extern "C" {
#endif

/*
 * The numbers given back, and the record given with each:
 *
 *    0  done                                                                                   0
 *    1  the table's length is below 12, above 60,000, or no multiple of 12                     0
 *    2  a wrong mark or order, or an EL is missing (at the end: the record count)              that one
 *    3  a kind, unused field or number that is not allowed, too many of a mark, HD's count     that one
 *    4  a number names nothing, or no earlier node                                             that one
 *    5  an operand or element of the wrong type, or a constraint that is not Boolean           that one
 *    6  a constraint with a free slot                                                          that one
 *    7  the choice is not 1 to 3                                                               0
 *    8  translate: the first interval beyond -2,000,000,000..2,000,000,000                     that node's
 *       evaluate: an integer node met with a value beyond it                                   0
 *    9  the output is longer than its buffer, or a translation longer than 60,000 bytes        0
 *   10  the assignment has the wrong length                                                    0
 *       or a first value outside its domain                                                    that VR
 *   11  the total of steps is above the budget                                                 0
 *
 * Where several apply: 7, then 1, then the first faulty record and in it 2 to 6 upward. After those, translate
 * goes on with 8, 9 and evaluate with 10, 9, 11, 8.
 */
enum {
    BARFIGOL_DONE = 0,
    BARFIGOL_LENGTH = 1,
    BARFIGOL_ORDER = 2,
    BARFIGOL_FIELD = 3,
    BARFIGOL_NAME = 4,
    BARFIGOL_TYPE = 5,
    BARFIGOL_FREE_SLOT = 6,
    BARFIGOL_CHOICE = 7,
    BARFIGOL_LIMIT = 8,
    BARFIGOL_ROOM = 9,
    BARFIGOL_ASSIGNMENT = 10,
    BARFIGOL_BUDGET = 11
};

/* The choices: how a table with undefined parts is read. */
enum { BARFIGOL_STRICT = 1, BARFIGOL_KLEENE = 2, BARFIGOL_RELATIONAL = 3 };

/* The bytes of the longest table that is read or written. */
#define BARFIGOL_MOST_BYTES 60000

/*
 * The bytes of stack that a call takes at most, whatever it is given: measured on the compiled library and
 * rounded up. An evaluation takes 112,000 bytes and 224 more for each level of nodes above nodes, of which a table
 * has at most 4,998. So a thread with a stack of 2 MB has room for every call.
 */
#define BARFIGOL_CHECK_STACK 32000
#define BARFIGOL_TRANSLATE_STACK 112000
#define BARFIGOL_EVALUATE_STACK 1250000

/* What a call gives back. A field that a call has nothing to say about is 0 or false. */
typedef struct {
    uint32_t number; /* 0 for done, else the number of the refusal */
    uint32_t record; /* the record that a refusal is about, 0 for a success */
    uint32_t steps;  /* the steps of an evaluation, 0 for a refusal and for the other calls */
    uint32_t length; /* how many bytes the call wrote, 0 for a refusal and for a check */
    bool all_true;   /* whether every verdict of an evaluation is 1; false for a refusal and for the other calls */
} barfigol_answer;

/*
 * Checks a table. Reads table[0 .. table_len) and writes nothing.
 * Gives 0 to 6.
 */
barfigol_answer barfigol_check(const uint8_t *table, size_t table_len);

/*
 * Works out each constraint of a table for one assignment, under one reading.
 *
 * Reads the table and assignment[0 .. assignment_len): one value for each variable, in their order.
 * Writes one byte for each constraint, in their order: 0 false, 1 true, 2 undefined. It is refused with 9 where
 * verdicts_len is below the number of constraints.
 * Gives 0 to 11. On 0, `steps` is the cost of all constraints, which no assignment changes, `length` the number
 * of constraints, and `all_true` is true where every verdict is 1, also where there is no constraint.
 * The time it takes grows with the steps, of which budget is the most that is allowed.
 */
barfigol_answer barfigol_evaluate(uint32_t choice, const uint8_t *table, size_t table_len, const int32_t *assignment,
                                  size_t assignment_len, uint32_t budget, uint8_t *verdicts, size_t verdicts_len);

/*
 * Translates a table under one reading. The translation has the same variables, and each of its constraints is
 * true where that constraint of the table is true under the reading, and false elsewhere.
 *
 * Reads the table, writes the translation to out. BARFIGOL_MOST_BYTES bytes of room always suffice.
 * Gives 0 to 9. On 0, `length` is the length of the translation in bytes.
 */
barfigol_answer barfigol_translate(uint32_t choice, const uint8_t *table, size_t table_len, uint8_t *out,
                                   size_t out_len);

#ifdef __cplusplus
}
#endif

#endif
