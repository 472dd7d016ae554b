/* The proved run and the plain C emulator on the same cycles. */
#include "emulator.h"
#include "measure.h"

#include <stdio.h>
#include <stdlib.h>
#include <string.h>

/* The archives' functions: the run from all zero with budget for every cycle, which answers how many cycles were accepted. The first
   archive has nothing else in it, the second has the block check and the reader beside it. */
size_t firanbekwo_run(const uint16_t *words, size_t word_count, uint16_t *reports, size_t report_count);
size_t firanbekwo_run_beside_check(const uint16_t *words, size_t word_count, uint16_t *reports, size_t report_count);

enum { TRACES = 16, REPORTS = 4 * CYCLES, PASSES = 8 };

struct trace {
    uint16_t words[WORDS];
};

/* A run of one trace into a slice of reports, which answers how many cycles were accepted. */
typedef size_t run_function(const struct trace *, uint16_t *reports);

static size_t run_alone(const struct trace *trace, uint16_t *reports)
{
    return firanbekwo_run(trace->words, WORDS, reports, REPORTS);
}

static size_t run_beside_check(const struct trace *trace, uint16_t *reports)
{
    return firanbekwo_run_beside_check(trace->words, WORDS, reports, REPORTS);
}

static size_t run_c(const struct trace *trace, uint16_t *reports)
{
    struct emulator machine = {0};
    uint8_t refusal;
    return emulate(&machine, trace->words, CYCLES, reports, &refusal);
}

static size_t run_nothing(const struct trace *trace, uint16_t *reports)
{
    (void)trace, (void)reports;
    return 0;
}

/* Draws a cycle: any word (of byte mode), any input, any pins that may be 1. */
static void draw_cycle(uint16_t cycle[3], bool byte_mode)
{
    cycle[0] = byte_mode ? draw() & 0x7FFF : draw();
    cycle[1] = draw();
    cycle[2] = draw() & 0x0F1F;
}

/* Draws cycles until enough of them are accepted one after another. */
static void make_trace(struct trace *trace, bool byte_mode)
{
    struct emulator machine = {0};
    size_t count = 0;
    while (count < CYCLES) {
        uint16_t cycle[3], report[4];
        uint8_t refusal;
        draw_cycle(cycle, byte_mode && !machine.waiting);
        if (emulate(&machine, cycle, 1, report, &refusal) == 1)
            memcpy(trace->words + 3 * count++, cycle, sizeof cycle);
    }
}

static struct trace any_mode[TRACES], byte_mode[TRACES];
static uint16_t reports[REPORTS], expected[REPORTS];

/* Both runs of a trace, and every word of the reports; a run that ends early leaves the rest of them as it was. */
static void compare_run(const struct trace *trace, run_function *run, const char *name)
{
    memset(reports, 0xA5, sizeof reports);
    memset(expected, 0xA5, sizeof expected);
    if (run(trace, reports) != run_c(trace, expected) || memcmp(reports, expected, sizeof reports) != 0) {
        printf("%s: a run and its reports are not those of C\n", name);
        exit(1);
    }
}

static void compare(const struct trace *traces, run_function *run, const char *name)
{
    static struct trace stray;
    for (int i = 0; i < TRACES; i++) {
        compare_run(traces + i, run, name);
        /* the same trace with a cycle of any kind put somewhere, which may be refused */
        stray = traces[i];
        draw_cycle(stray.words + 3 * (draw() % CYCLES), false);
        compare_run(&stray, run, name);
    }
    printf("%s: the same reports as in C, %d in %d traces, and in as many with a stray cycle\n", name, TRACES * CYCLES, TRACES);
}

void compare_cycles(void)
{
    for (int i = 0; i < TRACES; i++) {
        make_trace(any_mode + i, false);
        make_trace(byte_mode + i, true);
    }
    compare(any_mode, run_alone, "any mode, run alone");
    compare(any_mode, run_beside_check, "any mode, with trace linked");
    compare(byte_mode, run_alone, "byte mode, run alone");
    compare(byte_mode, run_beside_check, "byte mode, with trace linked");
}

/* Keeps the least nanoseconds per cycle. */
static void time_once(const struct trace *traces, run_function *run, double *best)
{
    double begun = seconds();
    for (int pass = 0; pass < PASSES; pass++)
        for (int i = 0; i < TRACES; i++)
            run(traces + i, reports);
    keep_least(best, (seconds() - begun) * 1e9 / ((double)PASSES * TRACES * CYCLES));
}

static void measure(const struct trace *traces, const char *name)
{
    double alone = 1e9, beside_check = 1e9, c = 1e9;
    for (int i = 0; i < TIMES; i++) {
        time_once(traces, run_alone, &alone);
        time_once(traces, run_beside_check, &beside_check);
        time_once(traces, run_c, &c);
    }
    printf("%s, ns per cycle: run alone %.2f, with trace linked %.2f, C %.2f\n", name, alone, beside_check, c);
    printf("%s, ours : C: run alone %.3f, with trace linked %.3f\n", name, alone / c, beside_check / c);
}

void measure_cycles(void)
{
    measure(any_mode, "any mode");
    measure(byte_mode, "byte mode");
}

bool work_on_cycles(const char *name, int traces)
{
    static const struct {
        const char *name;
        run_function *run;
    } runs[] = {{"alone", run_alone}, {"beside", run_beside_check}, {"c", run_c}, {"no-run", run_nothing}};
    for (size_t i = 0; i < sizeof runs / sizeof *runs; i++)
        if (strcmp(name, runs[i].name) == 0) {
            while (traces-- > 0) {
                make_trace(any_mode, false);
                runs[i].run(any_mode, reports);
            }
            return true;
        }
    return false;
}
