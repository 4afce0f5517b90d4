/*
 * The header beside the library: the layout of an answer, and calls in which every argument and every field
 * of the answer has a value of its own, so that two of them changed round would show. Prints what differs
 * and ends with 1, or prints 'calls agree' and ends with 0.
 *
 * Linked with -Wl,--wrap=malloc,--wrap=calloc,--wrap=realloc,--wrap=free it also shows that no call touches the
 * heap: every use of it outside the C library then ends in a function below.
 */
#include "barfigol.h"

#include <stdio.h>
#include <stdlib.h>
#include <string.h>

_Static_assert(sizeof(barfigol_answer) == 20, "an answer has 20 bytes");
_Static_assert(_Alignof(barfigol_answer) == 4, "an answer is aligned to 4 bytes");
_Static_assert(offsetof(barfigol_answer, number) == 0, "number");
_Static_assert(offsetof(barfigol_answer, record) == 4, "record");
_Static_assert(offsetof(barfigol_answer, steps) == 8, "steps");
_Static_assert(offsetof(barfigol_answer, length) == 12, "length");
_Static_assert(offsetof(barfigol_answer, all_true) == 16, "all_true");

enum { RECORD_BYTES = 12, RECORDS = 19, TABLE_BYTES = RECORDS * RECORD_BYTES, FILL = 0xa5, ROOM = 400 };

static int failures;

static void heap_is_touched(const char *function)
{
    printf("%s is called\n", function);
    fflush(stdout);
    _Exit(1);
}

/* The linker asks for these names. */
void *__wrap_malloc(size_t size)
{
    (void)size;
    heap_is_touched("malloc");
    return NULL;
}

void *__wrap_calloc(size_t count, size_t size)
{
    (void)count, (void)size;
    heap_is_touched("calloc");
    return NULL;
}

void *__wrap_realloc(void *place, size_t size)
{
    (void)place, (void)size;
    heap_is_touched("realloc");
    return NULL;
}

void __wrap_free(void *place)
{
    (void)place;
    heap_is_touched("free");
}

static void expect_answer(const char *call, barfigol_answer found, barfigol_answer wanted)
{
    if (found.number == wanted.number && found.record == wanted.record && found.steps == wanted.steps &&
        found.length == wanted.length && found.all_true == wanted.all_true)
        return;
    printf("%s: number %u, record %u, steps %u, length %u, all_true %d\n", call, (unsigned)found.number,
           (unsigned)found.record, (unsigned)found.steps, (unsigned)found.length, found.all_true);
    failures++;
}

static void expect_bytes(const char *call, const uint8_t *found, const uint8_t *wanted, size_t length)
{
    if (memcmp(found, wanted, length) != 0) {
        printf("%s: other bytes than expected\n", call);
        failures++;
    }
}

/* Says that the bytes from some place on are as they were filled. */
static void expect_filled(const char *call, const uint8_t *bytes, size_t from, size_t to)
{
    for (size_t i = from; i < to; i++) {
        if (bytes[i] != FILL) {
            printf("%s: byte %zu is changed\n", call, i);
            failures++;
            return;
        }
    }
}

static void put_number(uint8_t *at, int32_t number)
{
    for (int i = 0; i < 4; i++)
        at[i] = (uint8_t)((uint32_t)number >> 8 * i);
}

/*
 * Four variables v in 10..11, w in 20..21, b, z in 40..41 and three constraints, which cost 8, 1 and 3 steps:
 * not (1 div (v - 10) = 1), b, w < z.
 */
static void write_table(uint8_t *table)
{
    static const struct {
        char mark[3];
        uint8_t kind;
        int32_t x, y;
    } records[RECORDS] = {
        {"HD", 1, RECORDS, 0}, {"VR", 1, 10, 11}, {"VR", 1, 20, 21}, {"VR", 0, 0, 1},  {"VR", 1, 40, 41},
        {"ND", 1, 10, 0},      {"ND", 3, 0, 0},   {"ND", 7, 1, 0},   {"ND", 1, 1, 0},  {"ND", 9, 3, 2},
        {"ND", 25, 4, 3},      {"ND", 24, 5, 0},  {"ND", 4, 2, 0},   {"ND", 3, 1, 0},  {"ND", 3, 3, 0},
        {"ND", 28, 8, 9},      {"CN", 0, 6, 0},   {"CN", 0, 7, 0},   {"CN", 0, 10, 0},
    };
    for (int i = 0; i < RECORDS; i++, table += RECORD_BYTES) {
        memcpy(table, records[i].mark, 2);
        table[2] = records[i].kind;
        table[3] = 0;
        put_number(table + 4, records[i].x);
        put_number(table + 8, records[i].y);
    }
}

static void check_calls(uint8_t *table)
{
    expect_answer("check", barfigol_check(table, TABLE_BYTES), (barfigol_answer){0});
    expect_answer("check, a record less", barfigol_check(table, TABLE_BYTES - RECORD_BYTES),
                  (barfigol_answer){.number = BARFIGOL_FIELD});
    expect_answer("check, no bytes", barfigol_check(table, 0), (barfigol_answer){.number = BARFIGOL_LENGTH});
    put_number(table + 15 * RECORD_BYTES + 8, 10);
    expect_answer("check, no earlier node", barfigol_check(table, TABLE_BYTES),
                  (barfigol_answer){.number = BARFIGOL_NAME, .record = 15});
    put_number(table + 15 * RECORD_BYTES + 8, 9);
}

static void evaluate_calls(const uint8_t *table)
{
    static const int32_t inside[] = {10, 20, 1, 40}, outside[] = {10, 22, 1, 40};
    static const uint8_t relational[] = {1, 1, 1}, kleene[] = {2, 1, 1};
    uint8_t verdicts[5];
    memset(verdicts, FILL, sizeof verdicts);
    expect_answer("evaluate, refused", barfigol_evaluate(3, table, TABLE_BYTES, outside, 4, 13, verdicts, 5),
                  (barfigol_answer){.number = BARFIGOL_ASSIGNMENT, .record = 2});
    expect_answer("evaluate, short of steps", barfigol_evaluate(3, table, TABLE_BYTES, inside, 4, 11, verdicts, 5),
                  (barfigol_answer){.number = BARFIGOL_BUDGET});
    expect_answer("evaluate, short of room", barfigol_evaluate(3, table, TABLE_BYTES, inside, 4, 13, verdicts, 2),
                  (barfigol_answer){.number = BARFIGOL_ROOM});
    expect_filled("evaluate, refused", verdicts, 0, sizeof verdicts);
    expect_answer("evaluate under 3", barfigol_evaluate(3, table, TABLE_BYTES, inside, 4, 13, verdicts, 5),
                  (barfigol_answer){.steps = 12, .length = 3, .all_true = true});
    expect_bytes("evaluate under 3", verdicts, relational, 3);
    expect_answer("evaluate under 2", barfigol_evaluate(2, table, TABLE_BYTES, inside, 4, 12, verdicts, 3),
                  (barfigol_answer){.steps = 12, .length = 3});
    expect_bytes("evaluate under 2", verdicts, kleene, 3);
    expect_filled("evaluate", verdicts, 3, sizeof verdicts);
}

static void translate_calls(uint8_t *table)
{
    /* HD, 4 VR; the nodes of kinds 1, 3, 7, 1, 9, 25, 24, 4, 3, 3, 28 give 2, 2, 2, 2, 9, 4, 0, 2, 2, 2, 4; 3 CN. */
    enum { LENGTH = (1 + 4 + 31 + 3) * RECORD_BYTES };
    static uint8_t out[ROOM + LENGTH];
    memset(out, FILL, sizeof out);
    expect_answer("translate, short of room", barfigol_translate(3, table, TABLE_BYTES, out, LENGTH - 1),
                  (barfigol_answer){.number = BARFIGOL_ROOM});
    put_number(table + 8 * RECORD_BYTES + 4, 2000000001);
    expect_answer("translate, beyond the limit", barfigol_translate(3, table, TABLE_BYTES, out, sizeof out),
                  (barfigol_answer){.number = BARFIGOL_LIMIT, .record = 8});
    put_number(table + 8 * RECORD_BYTES + 4, 1);
    expect_answer("translate, no choice", barfigol_translate(259, table, TABLE_BYTES, out, sizeof out),
                  (barfigol_answer){.number = BARFIGOL_CHOICE});
    expect_filled("translate, refused", out, 0, sizeof out);
    expect_answer("translate", barfigol_translate(3, table, TABLE_BYTES, out, sizeof out),
                  (barfigol_answer){.length = LENGTH});
    expect_filled("translate", out, LENGTH, sizeof out);
    expect_bytes("translate, the variables", out + RECORD_BYTES, table + RECORD_BYTES, 4 * RECORD_BYTES);
    expect_answer("translate, then check", barfigol_check(out, LENGTH), (barfigol_answer){0});
}

/* A pointer with length 0 may be NULL, in every call, whether or not the call gets far enough to need what it has not. */
static void null_calls(const uint8_t *table)
{
    static const uint8_t head[RECORD_BYTES] = {'H', 'D', 1, 0, 1};
    static const uint8_t variable[2 * RECORD_BYTES] = {'H', 'D', 1, 0, 2, 0, 0, 0, 0, 0, 0, 0, 'V', 'R', 1, 0, 10, 0, 0, 0, 10};
    static const int32_t inside[] = {10, 20, 1, 40};
    uint8_t verdict = FILL;
    expect_answer("check NULL", barfigol_check(NULL, 0), (barfigol_answer){.number = BARFIGOL_LENGTH});
    for (uint32_t choice = 0; choice <= 3; choice++) {
        uint32_t early = choice == 0 ? BARFIGOL_CHOICE : 0;
        expect_answer("evaluate, all NULL", barfigol_evaluate(choice, NULL, 0, NULL, 0, 0, NULL, 0),
                      (barfigol_answer){.number = early ? early : BARFIGOL_LENGTH});
        expect_answer("evaluate a head, NULL", barfigol_evaluate(choice, head, sizeof head, NULL, 0, 0, NULL, 0),
                      (barfigol_answer){.number = early, .all_true = !early});
        expect_answer("evaluate, no constraint",
                      barfigol_evaluate(choice, variable, sizeof variable, inside, 1, 0, NULL, 0),
                      (barfigol_answer){.number = early, .all_true = !early});
        expect_answer("evaluate, no assignment", barfigol_evaluate(choice, table, TABLE_BYTES, NULL, 0, 13, &verdict, 1),
                      (barfigol_answer){.number = early ? early : BARFIGOL_ASSIGNMENT});
        expect_answer("evaluate, no verdicts", barfigol_evaluate(choice, table, TABLE_BYTES, inside, 4, 13, NULL, 0),
                      (barfigol_answer){.number = early ? early : BARFIGOL_ROOM});
        expect_answer("translate, all NULL", barfigol_translate(choice, NULL, 0, NULL, 0),
                      (barfigol_answer){.number = early ? early : BARFIGOL_LENGTH});
        expect_answer("translate, no room", barfigol_translate(choice, table, TABLE_BYTES, NULL, 0),
                      (barfigol_answer){.number = early ? early : BARFIGOL_ROOM});
        expect_answer("translate a head, no room", barfigol_translate(choice, head, sizeof head, NULL, 0),
                      (barfigol_answer){.number = early ? early : BARFIGOL_ROOM});
    }
    expect_filled("evaluate, no assignment", &verdict, 0, 1);
}

/* The version as text is the version as numbers. */
static void version(void)
{
    char text[40];
    snprintf(text, sizeof text, "%d.%d.%d", BARFIGOL_VERSION_MAJOR, BARFIGOL_VERSION_MINOR, BARFIGOL_VERSION_PATCH);
    if (strcmp(text, BARFIGOL_VERSION) != 0) {
        printf("version: %s in numbers, %s in text\n", text, BARFIGOL_VERSION);
        failures++;
    }
}

int main(void)
{
    uint8_t table[TABLE_BYTES], before[TABLE_BYTES];
    write_table(table);
    memcpy(before, table, sizeof table);
    check_calls(table);
    evaluate_calls(table);
    translate_calls(table);
    null_calls(table);
    version();
    expect_bytes("the table itself", table, before, sizeof table);
    if (failures == 0)
        puts("calls agree");
    return failures != 0;
}
