#include "check.h"

enum { POLYNOMIAL = 0x1021 };

/* What is left of a register after eight bits, by its upper byte. */
static uint16_t table[256];

void make_check_table(void)
{
    for (unsigned upper = 0; upper < 256; upper++) {
        unsigned check = upper << 8;
        for (int i = 0; i < 8; i++)
            check = check & 0x8000 ? check << 1 ^ POLYNOMIAL : check << 1;
        table[upper] = (uint16_t)check;
    }
}

uint16_t table_check(const uint8_t *bytes, size_t count)
{
    uint16_t check = 0;
    for (size_t i = 0; i < count; i++)
        check = (uint16_t)(check << 8) ^ table[check >> 8 ^ bytes[i]];
    return check;
}
