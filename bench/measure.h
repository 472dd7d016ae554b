#ifndef MEASURE_H
#define MEASURE_H

#include <stdbool.h>
#include <stdint.h>

/* What both parts of the driver use. A full trace has 4,096 cycles of three words, and each time is the best of nine. */
enum { CYCLES = 4096, WORDS = 3 * CYCLES, TIMES = 9 };

/* The driver's own random numbers: xorshift, from a fixed seed. */
uint16_t draw(void);

/* The processor time of this process. */
double seconds(void);

/* Keeps the least of several times. */
void keep_least(double *best, double taken);

/* cycles.c: the run beside the emulator in C. The first makes the input that the second then times; the third does one job on some traces,
   and answers false where none has that name. */
void compare_cycles(void);
void measure_cycles(void);
bool work_on_cycles(const char *name, int traces);

/* blocks.c: the check beside the one in C, and the reader by itself; likewise. */
void compare_blocks(void);
void measure_blocks(void);
bool work_on_blocks(const char *name, int traces);

#endif
