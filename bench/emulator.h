#ifndef EMULATOR_H
#define EMULATOR_H

#include <stddef.h>
#include <stdint.h>

/* The Am29C116 in plain C, from document 01, as a yardstick for speed. */
struct emulator {
    uint16_t ram[32];
    uint16_t acc, latch;
    uint16_t waiting_word;   /* meaningful where waiting is 1 */
    uint8_t status;
    uint8_t waiting;         /* 1: a word waits for its I operand */
};

/* Runs `cycles` cycles of three words each (instruction lines, Y input, pins). Writes four report words (Y, mask, CT, T) for each accepted cycle.
   Stops at the first refused cycle, which changes nothing. Answers how many cycles were accepted; *refusal is document 01's number of the
   refusal (4 to 10), or 0. */
size_t emulate(struct emulator *machine, const uint16_t *words, size_t cycles, uint16_t *reports, uint8_t *refusal);

#endif
