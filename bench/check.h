#ifndef CHECK_H
#define CHECK_H

#include <stddef.h>
#include <stdint.h>

/* The check of a trace block (document 01) in plain C, a byte at a time by a table, as a yardstick for speed. */

/* Makes the table; to be called first. */
void make_check_table(void);

/* The check of some bytes. */
uint16_t table_check(const uint8_t *bytes, size_t count);

#endif
