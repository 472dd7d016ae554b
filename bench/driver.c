/* Times what is proved against plain C, in one process and on the same input, and the proved reader by itself.
 *
 * usage: driver           compares every answer, then prints the times
 *        driver NAME N    makes N traces and does one job on each, for a tool that counts instructions:
 *                         alone, beside, c    the run: ours, ours with trace linked, or C's
 *                         no-run              nothing, after the same trace is made
 *                         check, table        the checks of all blocks, ours or C's
 *                         read                the reading
 *                         no-job              nothing, after the same blocks are made
 */
#include "measure.h"

#include <stdio.h>
#include <stdlib.h>
#include <time.h>

static uint64_t state = 0x29C116;

uint16_t draw(void)
{
    state ^= state << 13;
    state ^= state >> 7;
    state ^= state << 17;
    return (uint16_t)(state >> 32);
}

double seconds(void)
{
    struct timespec now;
    clock_gettime(CLOCK_PROCESS_CPUTIME_ID, &now);
    return (double)now.tv_sec + 1e-9 * (double)now.tv_nsec;
}

void keep_least(double *best, double taken)
{
    if (taken < *best)
        *best = taken;
}

int main(int count, char **arguments)
{
    if (count == 3 && (work_on_cycles(arguments[1], atoi(arguments[2])) || work_on_blocks(arguments[1], atoi(arguments[2]))))
        return 0;
    if (count != 1) {
        fputs("usage: driver, or driver alone|beside|c|no-run|check|table|read|no-job N\n", stderr);
        return 2;
    }
    compare_cycles();
    compare_blocks();
    measure_cycles();
    measure_blocks();
    return 0;
}
