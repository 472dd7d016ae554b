/* The proved block check and the table-driven one in C on the same blocks, and the proved reader of a full trace. */
#include "check.h"
#include "measure.h"

#include <stdio.h>
#include <stdlib.h>
#include <string.h>

/* The archive's functions: the check of some bytes, and the reader, which answers how many words it filled, 0 where it refuses. */
uint16_t firanbekwo_check(const uint8_t *bytes, size_t byte_count);
size_t firanbekwo_read(const uint8_t *trace, size_t byte_count, uint16_t *cycles, size_t word_count);

enum { BLOCK_BYTES = 512, CHECKED_BYTES = 510, FULL_COUNT = 84, BLOCKS = 49, TRACE_BYTES = BLOCKS * BLOCK_BYTES, PASSES = 200 };

static uint16_t words[WORDS], given[WORDS];
static uint8_t trace[TRACE_BYTES];

/* Lays out block k as document 01 has it: its number, the count, the records' words low byte first, and the check high byte first. */
static void put_block(int k)
{
    uint8_t *block = trace + k * BLOCK_BYTES;
    const int first = k * FULL_COUNT, count = CYCLES - first < FULL_COUNT ? CYCLES - first : FULL_COUNT;
    block[0] = (uint8_t)k;
    block[2] = (uint8_t)count;
    for (int i = 0; i < 3 * count; i++) {
        block[4 + 2 * i] = words[3 * first + i] & 255;
        block[5 + 2 * i] = words[3 * first + i] >> 8;
    }
    const uint16_t check = table_check(block, CHECKED_BYTES);
    block[CHECKED_BYTES] = check >> 8;
    block[CHECKED_BYTES + 1] = check & 255;
}

/* Draws the words of 4,096 cycles and puts them into blocks, with C's table. */
static void make_trace(void)
{
    make_check_table();
    memset(trace, 0, sizeof trace);
    for (int i = 0; i < WORDS; i++)
        words[i] = draw();
    for (int k = 0; k < BLOCKS; k++)
        put_block(k);
}

/* The sum of the checks, and how many words the last reading filled. */
static size_t sum, filled;

static void check_ours(void)
{
    for (int k = 0; k < BLOCKS; k++)
        sum += firanbekwo_check(trace + k * BLOCK_BYTES, CHECKED_BYTES);
}

static void check_table(void)
{
    for (int k = 0; k < BLOCKS; k++)
        sum += table_check(trace + k * BLOCK_BYTES, CHECKED_BYTES);
}

static void read_trace(void)
{
    filled = firanbekwo_read(trace, TRACE_BYTES, given, WORDS);
}

static void nothing(void) { }

static void expect(bool good, const char *what)
{
    if (!good) {
        printf("%s\n", what);
        exit(1);
    }
}

/* Both checks of the same bytes. */
static void compare_check(const uint8_t *bytes, size_t count)
{
    expect(firanbekwo_check(bytes, count) == table_check(bytes, count), "a check is not that of C");
}

void compare_blocks(void)
{
    make_trace();
    expect(firanbekwo_check((const uint8_t *)"123456789", 9) == 0x31C3, "the check of 123456789 is not 31C3");
    compare_check(trace, TRACE_BYTES);
    for (int k = 0; k < BLOCKS; k++)
        for (size_t count = 0; count <= BLOCK_BYTES; count++)
            compare_check(trace + k * BLOCK_BYTES, count);
    read_trace();
    expect(filled == WORDS && memcmp(given, words, sizeof words) == 0, "the words read are not those of the trace");
    for (int i = 0; i < 1000; i++) {
        uint8_t *byte = trace + draw() % TRACE_BYTES;
        const uint8_t bit = (uint8_t)(1 << draw() % 8);
        *byte ^= bit;
        read_trace();
        expect(filled == 0, "a trace with a bit turned over is read");
        *byte ^= bit;
    }
    printf("blocks: the same checks as in C; a full trace is read, and refused with a bit turned over, 1000 times\n");
}

/* Keeps the least nanoseconds that a job on the whole trace takes. */
static void time_once(void (*job)(void), double *best)
{
    double begun = seconds();
    for (int pass = 0; pass < PASSES; pass++)
        job();
    keep_least(best, (seconds() - begun) * 1e9 / PASSES);
}

void measure_blocks(void)
{
    double ours = 1e12, table = 1e12, read = 1e12;
    for (int i = 0; i < TIMES; i++) {
        time_once(check_ours, &ours);
        time_once(check_table, &table);
        time_once(read_trace, &read);
    }
    printf("block check, ns per block: ours %.1f, table-driven C %.1f\n", ours / BLOCKS, table / BLOCKS);
    printf("block check, ours : C: %.3f\n", ours / table);
    printf("reading a full trace of %d blocks, us: %.1f\n", BLOCKS, read / 1e3);
}

bool work_on_blocks(const char *name, int traces)
{
    static const struct {
        const char *name;
        void (*job)(void);
    } jobs[] = {{"check", check_ours}, {"table", check_table}, {"read", read_trace}, {"no-job", nothing}};
    for (size_t i = 0; i < sizeof jobs / sizeof *jobs; i++)
        if (strcmp(name, jobs[i].name) == 0) {
            while (traces-- > 0) {
                make_trace();
                jobs[i].job();
            }
            return true;
        }
    return false;
}
