/*
 * How much stack each call takes, beside what the header says. Every call runs on a thread whose stack is no more than the 2 MB that suffice for
 * every table, and was painted beforehand: the bytes that lost their paint are counted, without those of a thread that does nothing. The deep
 * tables are the deepest that 60,000 bytes have room for. Prints the figures, and ends with 1 where one is above the header's.
 */
#define _POSIX_C_SOURCE 200112L /* for pthread_attr_setstack */
#include "barfigol.h"

#include <pthread.h>
#include <stdio.h>
#include <stdlib.h>
#include <string.h>

enum { RECORD_BYTES = 12, PAGE = 4096, PAINT = 0xc3 };

/* The whole pages of 2 MB, and what an evaluation that is not deep may take. */
enum { STACK = 2000000 / PAGE * PAGE, SHALLOW = 112000 };

static _Alignas(PAGE) uint8_t stack[STACK];
static uint8_t table[BARFIGOL_MOST_BYTES], out[BARFIGOL_MOST_BYTES];
static size_t table_len;
static barfigol_answer answer;
static int failures;

static void put_number(uint8_t *at, int32_t number)
{
    for (int i = 0; i < 4; i++)
        at[i] = (uint8_t)((uint32_t)number >> 8 * i);
}

static void put(const char *mark, uint8_t kind, int32_t x, int32_t y)
{
    uint8_t *at = table + table_len;
    if (table_len == sizeof table) {
        puts("a table is too long");
        exit(1);
    }
    memcpy(at, mark, 2);
    at[2] = kind;
    at[3] = 0;
    put_number(at + 4, x);
    put_number(at + 8, y);
    table_len += RECORD_BYTES;
}

/* Ends a table: its head counts the records. */
static void count_records(void)
{
    put_number(table + 4, (int32_t)(table_len / RECORD_BYTES));
}

/* A leaf and nodes of one kind, each over the one before, and a constraint: as many as there is room for. */
static void write_chain(uint8_t leaf, uint8_t kind, int over_slot)
{
    int32_t last = 0, most = BARFIGOL_MOST_BYTES / RECORD_BYTES - 2 - over_slot;
    table_len = 0;
    put("HD", 1, 0, 0);
    if (over_slot)
        put("SL", 0, 0, 0);
    put("ND", leaf, 1, 0);
    if (leaf == 1)
        most--;
    while (last < most - 1) {
        put("ND", kind, over_slot ? 0 : last, over_slot ? last : 0);
        last++;
    }
    if (leaf == 1)
        put("ND", 27, 0, last++);
    put("CN", 0, last, 0);
    count_records();
}

/* A truth value and a constraint on it. */
static void write_flat(void)
{
    table_len = 0;
    put("HD", 1, 0, 0);
    put("ND", 2, 1, 0);
    put("CN", 0, 0, 0);
    count_records();
}

static void *nothing(void *unused)
{
    return unused;
}

static void *check(void *unused)
{
    answer = barfigol_check(table, table_len);
    return unused;
}

static void *translate(void *unused)
{
    answer = barfigol_translate(BARFIGOL_STRICT, table, table_len, out, sizeof out);
    return unused;
}

static void *evaluate(void *unused)
{
    answer = barfigol_evaluate(BARFIGOL_KLEENE, table, table_len, NULL, 0, UINT32_MAX, out, 1);
    return unused;
}

/* Runs a call on the painted stack and gives the bytes that lost their paint. */
static size_t painted(void *(*call)(void *))
{
    pthread_attr_t attributes;
    pthread_t thread;
    size_t clean = 0;
    memset(stack, PAINT, sizeof stack);
    if (pthread_attr_init(&attributes) || pthread_attr_setstack(&attributes, stack, sizeof stack) ||
        pthread_create(&thread, &attributes, call, NULL) || pthread_join(thread, NULL)) {
        puts("no thread on a painted stack");
        exit(1);
    }
    pthread_attr_destroy(&attributes);
    while (clean < sizeof stack && stack[clean] == PAINT)
        clean++;
    return sizeof stack - clean;
}

static void expect_within(const char *what, void *(*call)(void *), uint32_t number, size_t most)
{
    size_t used = painted(call) - painted(nothing);
    int wrong = used > most || answer.number != number;
    printf("%s: %zu bytes of stack, the header says %zu%s\n", what, used, most, wrong ? ": WRONG" : "");
    if (answer.number != number)
        printf("%s: number %u\n", what, (unsigned)answer.number);
    failures += wrong;
}

int main(void)
{
    write_flat();
    expect_within("check", check, BARFIGOL_DONE, BARFIGOL_CHECK_STACK);
    expect_within("translate", translate, BARFIGOL_DONE, BARFIGOL_TRANSLATE_STACK);
    expect_within("evaluate", evaluate, BARFIGOL_DONE, SHALLOW);
    write_chain(2, 24, 0);
    expect_within("check, nots", check, BARFIGOL_DONE, BARFIGOL_CHECK_STACK);
    expect_within("translate, nots", translate, BARFIGOL_DONE, BARFIGOL_TRANSLATE_STACK);
    expect_within("evaluate, nots", evaluate, BARFIGOL_DONE, BARFIGOL_EVALUATE_STACK);
    write_chain(1, 6, 0);
    expect_within("translate, sums of two", translate, BARFIGOL_ROOM, BARFIGOL_TRANSLATE_STACK);
    expect_within("evaluate, sums of two", evaluate, BARFIGOL_DONE, BARFIGOL_EVALUATE_STACK);
    write_chain(2, 30, 1);
    expect_within("evaluate, foralls", evaluate, BARFIGOL_DONE, BARFIGOL_EVALUATE_STACK);
    return failures != 0;
}
