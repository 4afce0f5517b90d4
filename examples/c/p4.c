/*
 * Checks, evaluates and translates one small table, under the relational reading: a variable y in 0..1 and the
 * constraint that 1 div y = 1 does not hold. At y = 0 the quotient is undefined.
 *
 * From the root: cc -Iinclude examples/c/p4.c target/staticlib/libbarfigol.a -o target/p4
 * Installed: cc p4.c $(pkg-config --cflags --libs barfigol) -o p4
 */
#include "barfigol.h"

#include <stdio.h>
#include <string.h>

enum { RECORD_BYTES = 12, RECORDS = 8 };

/* A table as its fields. aux is 0 in every record. */
struct fields {
    char mark[3];
    uint8_t kind;
    int32_t x, y;
};

static const struct fields P4[RECORDS] = {
    {"HD", 1, RECORDS, 0}, /* the number of records */
    {"VR", 1, 0, 1},       /* y in 0..1 */
    {"ND", 1, 1, 0},       /* node 0: 1 */
    {"ND", 3, 0, 0},       /* node 1: y */
    {"ND", 9, 0, 1},       /* node 2: node 0 div node 1 */
    {"ND", 25, 2, 0},      /* node 3: node 2 = node 0 */
    {"ND", 24, 3, 0},      /* node 4: not node 3 */
    {"CN", 0, 4, 0},       /* node 4 is the constraint */
};

static void put_number(uint8_t *at, int32_t number)
{
    for (int i = 0; i < 4; i++)
        at[i] = (uint8_t)((uint32_t)number >> 8 * i);
}

static int32_t get_number(const uint8_t *at)
{
    uint32_t bits = 0;
    for (int i = 0; i < 4; i++)
        bits |= (uint32_t)at[i] << 8 * i;
    return (int32_t)bits;
}

static void write_table(uint8_t *table)
{
    for (int i = 0; i < RECORDS; i++, table += RECORD_BYTES) {
        memcpy(table, P4[i].mark, 2);
        table[2] = P4[i].kind;
        table[3] = 0;
        put_number(table + 4, P4[i].x);
        put_number(table + 8, P4[i].y);
    }
}

static int refused(const char *call, barfigol_answer answer)
{
    if (answer.number != BARFIGOL_DONE)
        printf("%s: refused with %u at record %u\n", call, (unsigned)answer.number, (unsigned)answer.record);
    return answer.number != BARFIGOL_DONE;
}

static int print_verdicts(const uint8_t *table, size_t table_len)
{
    for (int32_t y = 0; y <= 1; y++) {
        uint8_t verdict;
        barfigol_answer answer =
            barfigol_evaluate(BARFIGOL_RELATIONAL, table, table_len, &y, 1, 1000, &verdict, sizeof verdict);
        if (refused("evaluate", answer))
            return 1;
        printf("y = %d: verdict %d after %u steps\n", (int)y, verdict, (unsigned)answer.steps);
    }
    return 0;
}

static void print_records(const uint8_t *table, size_t table_len)
{
    for (const uint8_t *at = table; at < table + table_len; at += RECORD_BYTES)
        printf("%c%c %d %d %d %d\n", at[0], at[1], at[2], at[3], (int)get_number(at + 4), (int)get_number(at + 8));
}

int main(void)
{
    static uint8_t out[BARFIGOL_MOST_BYTES];
    uint8_t table[RECORDS * RECORD_BYTES];
    write_table(table);
    if (refused("check", barfigol_check(table, sizeof table)))
        return 1;
    puts("the table is sound");
    if (print_verdicts(table, sizeof table))
        return 1;
    barfigol_answer answer = barfigol_translate(BARFIGOL_RELATIONAL, table, sizeof table, out, sizeof out);
    if (refused("translate", answer))
        return 1;
    printf("translated into %u bytes:\n", (unsigned)answer.length);
    print_records(out, answer.length);
    return 0;
}
