#include "emulator.h"

#include <stdbool.h>

enum { ZERO, CARRY, NEGATIVE, OVERFLOW, LINK, FLAG1, FLAG2, FLAG3 };        /* the numbers of the status bits */
enum { FLAGS = 0x0F, FLAGS_AND_LINK = 0x1F, ALL_STATUS = 0xFF };            /* masks of them */
enum { IEN = 0x01, SRE = 0x02, DLE = 0x04, OE_Y = 0x08, OE_T = 0x10, STRAY_PINS = 0xF0E0 };
enum { TO_Y = 0, TO_ACC = 1, TO_RAM = 2, TO_STATUS = 4 };                   /* as field C of quadrant 3 has them, and RAM besides */

/* What an instruction leaves. All 0: no bit of Y is known, and nothing changes. */
struct result {
    unsigned y, known;                  /* Y, and a mask of its known bits */
    unsigned destination, width;        /* where Y goes, and a mask of the bits that RAM or ACC takes */
    unsigned status, changed;           /* the new status, and a mask of the bits that take it */
};

static unsigned bit(unsigned value, unsigned number) { return value >> number & 1; }
static unsigned merge(unsigned mask, unsigned ones, unsigned zeros) { return (ones & mask) | (zeros & ~mask); }
static unsigned compare(unsigned mask, unsigned rotated, unsigned other) { return (other ^ rotated) & ~mask; }

/* The destinations of quadrants 0 and 2: 0 ACC, 2 Y, else RAM. */
static unsigned decode_destination(unsigned code) { return code == 0 ? TO_ACC : code == 2 ? TO_Y : TO_RAM; }

/* Whether quadrant 3 lists C as a destination with this A; status only in SONR and TONR. */
static bool is_destination(unsigned a, unsigned c) { return c <= 1 || ((c == 4 || c == 5) && (a < 6 || a > 11)); }

/* Whether it is an accepted word with an I operand. */
static inline bool has_immediate(unsigned word)
{
    const unsigned quadrant = word >> 13 & 3, a = word >> 9 & 15, b = word >> 5 & 15;

    if (quadrant == 0)
        return b < 12 && (a == 2 || a == 10 || a == 14);
    if (quadrant == 1)
        return b == 2 || b == 3 || b == 5 || b == 7 || b == 9 || b == 12 || b == 14;
    if (quadrant == 3 && !is_destination(a, word & 31))
        return false;
    if (a == 11)
        return b == 4 || b == 6 || (quadrant == 2 && (b == 0 || b == 2 || b == 3));
    return a >= 12 ? b == 7 : (a == 2 || a == 5) && b < 12;
}

/* Bit k of *carries becomes the carry into bit k. Bits above the width may be anything: they don't reach the carries up to it. */
static unsigned add(unsigned r, unsigned s, unsigned carry, unsigned *carries)
{
    *carries = r ^ s ^ (r + s + carry);
    return r + s + carry;
}

static inline unsigned operate(unsigned operation, unsigned r, unsigned s, unsigned carry, unsigned *carries)
{
    switch (operation) {
    case 0: return add(s, ~r, 1, carries);
    case 1: return add(s, ~r, carry, carries);
    case 2: return add(r, ~s, 1, carries);
    case 3: return add(r, ~s, carry, carries);
    case 4: return add(r, s, 0, carries);
    case 5: return add(r, s, carry, carries);
    case 6: return r & s;
    case 7: return ~(r & s);
    case 8: return r ^ s;
    case 9: return ~(r | s);
    case 10: return r | s;
    default: return ~(r ^ s);
    }
}

static unsigned rotate(unsigned value, unsigned count, unsigned top)
{
    value &= (2u << top) - 1;
    count &= top;
    return value << count | value >> (top + 1 - count);
}

/* Works out an instruction on a machine, which it leaves alone. Answers 0, or the refusal of the word. */
static inline unsigned execute(const struct emulator *machine, unsigned word, unsigned immediate, unsigned latch, struct result *result)
{
    static const uint8_t named[32] = { [3] = FLAGS, [5] = 1 << LINK, [6] = 1 << FLAG1, [9] = 1 << FLAG2, [10] = 1 << FLAG3 };
    const unsigned quadrant = word >> 13 & 3, a = word >> 9 & 15, b = word >> 5 & 15, c = word & 31, power = 1u << a;
    const unsigned width = word & 0x8000 ? 0xFFFF : 0xFF, top = word & 0x8000 ? 15 : 7;
    const unsigned ram = machine->ram[c], acc = machine->acc, status = machine->status;
    const unsigned old_carry = bit(status, CARRY), old_link = bit(status, LINK);
    const bool on_ram = quadrant == 2, mask_in_ram = b == 7 || b == 9;
    unsigned y, source, destination = TO_RAM, known = width, carries = 0, sign = 1u << top, link = 0, changed = FLAGS;

    if (quadrant == 0 && b < 12) {                                          /* TOR1: pairs RAM,ACC; RAM,I; D,RAM */
        const unsigned pair = a & 3;
        if (pair == 1 || a >> 2 == 1) return 7;
        y = operate(b, pair == 3 ? latch : ram, pair == 3 ? ram : pair == 2 ? immediate : acc, old_carry, &carries);
        sign = b == 11 ? 0 : sign;                                          /* XNOR sets N to 0 */
        destination = decode_destination(a >> 2);
    } else if (quadrant == 0) {                                             /* ROTR1 */
        if (b == 13) return 7;
        y = rotate(ram, a, top);
        destination = decode_destination(b & 3);
    } else if (quadrant == 1) {                                             /* ROTR2, ROTC, ROTM */
        switch (b) {
        case 0: y = rotate(acc, a, top); break;
        case 1: y = rotate(latch, a, top); break;
        case 2: y = compare(immediate, rotate(latch, a, top), acc); destination = TO_Y; break;
        case 3: y = compare(immediate, rotate(latch, a, top), ram); destination = TO_Y; break;
        case 4: y = compare(acc, rotate(latch, a, top), ram); destination = TO_Y; break;
        case 5: y = compare(immediate, rotate(ram, a, top), acc); destination = TO_Y; break;
        case 7: y = merge(immediate, rotate(latch, a, top), acc); destination = TO_ACC; break;
        case 8: y = merge(ram, rotate(latch, a, top), acc); destination = TO_ACC; break;
        case 9: y = merge(immediate, rotate(latch, a, top), ram); break;
        case 10: y = merge(acc, rotate(latch, a, top), ram); break;
        case 12: y = merge(immediate, rotate(acc, a, top), ram); break;
        case 14: y = merge(immediate, rotate(ram, a, top), acc); destination = TO_ACC; break;
        default: return 7;
        }
    } else if (quadrant == 3 && b == 12 && c >= 24) {                       /* ROTNR */
        if (c & 2) return 7;
        y = rotate(c >= 28 ? acc : latch, a, top);
        destination = c & 1 ? TO_ACC : TO_Y;
    } else if (b >= 12) {                                                   /* BONR by C; BOR1 and BOR2 by quadrant and B */
        const bool by_c = quadrant == 3 && b == 12;
        source = !by_c ? ram : c < 16 ? acc : latch;
        destination = !by_c ? TO_RAM : c < 16 ? TO_ACC : TO_Y;
        switch (by_c ? c & 15 : quadrant << 4 | b) {
        case 0: case 0x3F: y = source & power; destination = TO_Y; break;
        case 1: case 0x3E: y = source & ~power; break;
        case 2: case 0x3D: y = source | power; break;
        case 4: case 0x2E: y = add(source, power, 0, &carries); break;
        case 5: case 0x2F: y = add(source, ~power, 1, &carries); break;
        case 6: case 0x2C: y = power; break;
        case 7: case 0x2D: y = ~power; break;
        default: return 7;
        }
        if (a > top) return 9;
    } else if (quadrant == 3 && b == 10 && a >= 8 && a <= 11) {             /* SETST, RSTST; Test, NOOP */
        const bool writes = a >= 10;
        if (top == 15 || !(writes ? named[c] != 0 : a == 9 ? c <= 22 && c % 2 == 0 : c == 0)) return 7;
        y = a == 11 ? 0xFFFF : 0;
        known = writes ? 0xFFFF : 0;
        destination = writes ? TO_STATUS : TO_Y;
        changed = writes ? named[c] : 0;
    } else {
        if (quadrant == 3 && !is_destination(a, c)) return 7;
        destination = on_ram ? TO_RAM : c;
        switch (a) {
        case 1: case 2: case 5:                                             /* TOR2, TONR: D,ACC; ACC,I; D,I */
            y = operate(b, a == 2 ? acc : latch, a == 1 ? acc : immediate, old_carry, &carries);
            sign = b == 11 ? 0 : sign;
            break;
        case 6: case 7:                                                     /* SHFTR, SHFTNR; CRCF, CRCR; SVSTR, SVSTNR */
            if ((b == 3 || b == 9) && (a == 7 || !on_ram || top == 7)) return 7;
            if (b == 10 && a == 6) return 7;
            source = (a == 7 ? latch : on_ram ? ram : acc) & width;
            link = bit(source, b < 4 ? top : 0);
            changed = FLAGS_AND_LINK;
            switch (b) {
            case 0: y = source << 1; break;
            case 1: y = source << 1 | 1; break;
            case 2: y = source << 1 | old_link; break;
            case 3: y = source << 1 ^ (link != old_link ? acc : 0); break;
            case 4: y = source >> 1; break;
            case 5: y = source >> 1 | 1u << top; break;
            case 6: y = source >> 1 | old_link << top; break;
            case 7: y = source >> 1 | old_carry << top; break;
            case 8: y = source >> 1 | (bit(status, NEGATIVE) ^ bit(status, OVERFLOW)) << top; break;
            case 9: y = source >> 1 ^ (link != old_link ? acc : 0); break;
            case 10: y = status; known = 0xFFFF; changed = 0; break;
            default: return 7;
            }
            break;
        case 8: case 10: case 11:                                           /* PRT1, with its mask in RAM; PRT2, PRT3, PRTNR */
            if (b != 4 && b != 6 && !(on_ram && (b == 0 || b == 2 || b == 3 || mask_in_ram))) return 7;
            if (a == 8 && b == 4) return 8;
            source = b == 4 || b == 7 ? acc : b == 6 || b == 9 ? latch : ram;
            source &= ~(mask_in_ram ? ram : a == 8 ? acc : a == 10 ? 0 : immediate) & width;
            y = source == 0 ? 0 : top + 1 - (31 - (unsigned)__builtin_clz(source));
            known = 0xFFFF;
            destination = !on_ram ? c : decode_destination(mask_in_ram ? a & 3 : b);
            break;
        case 12: case 13: case 14: case 15:                                 /* SOR, SONR: MOVE, COMP, INC, NEG */
            if (!on_ram && (b < 4 || b == 11)) return 7;
            switch (b) {
            case 0: case 2: case 3: case 11: source = ram; break;
            case 4: source = acc; break;
            case 6: source = latch; break;
            case 7: source = immediate; break;
            case 8: source = 0; break;
            case 9: source = latch & 0xFF; break;
            case 10: source = (unsigned)(int8_t)latch; break;
            default: return 7;
            }
            y = add(a & 1 ? ~source : source, 0, a >= 14, &carries);
            destination = !on_ram ? c : b == 3 ? TO_STATUS : decode_destination(b);
            break;
        default:
            return 7;
        }
        if (destination & TO_STATUS) changed = top == 15 ? ALL_STATUS : FLAGS;
    }
    y &= known;
    const unsigned carry = bit(carries, top + 1), overflow = carry ^ bit(carries, top), zero = y == 0, negative = (y & sign) != 0;
    const unsigned flags = zero << ZERO | carry << CARRY | negative << NEGATIVE | overflow << OVERFLOW | link << LINK;
    *result = (struct result){ y, known, destination, width, destination & TO_STATUS ? y : flags, changed };
    return 0;
}

/* CT: the twelve conditions stand side by side, and the code picks one. */
static unsigned condition(unsigned code, unsigned status)
{
    const unsigned zero = bit(status, ZERO), carry = bit(status, CARRY), negative = bit(status, NEGATIVE), overflow = bit(status, OVERFLOW);
    const unsigned less = negative ^ overflow, conditions = (less | zero) | less << 1 | zero << 2 | overflow << 3 | carry << 5
        | (zero | (carry ^ 1)) << 6 | negative << 7 | status >> LINK << 8;

    return code < 12 ? bit(conditions, code) : 2;
}

size_t emulate(struct emulator *machine, const uint16_t *words, size_t cycles, uint16_t *reports, uint8_t *refusal)
{
    struct emulator state = *machine;   /* which no report can overlap */
    unsigned refused = state.waiting && !has_immediate(state.waiting_word) ? 4 : 0;
    size_t accepted;

    for (accepted = 0; refused == 0 && accepted < cycles; accepted++, words += 3, reports += 4) {
        const unsigned lines = words[0], pins = words[2], word = state.waiting ? state.waiting_word : lines;
        const unsigned latch = pins & DLE ? words[1] : state.latch, old_status = state.status;
        const bool waits = !state.waiting && has_immediate(word), tests = (word & 0xFFE0) == 0x7340 && !(pins & IEN);
        struct result result = { 0 };

        if (pins & STRAY_PINS) refused = 5;
        else if (pins & DLE && !(pins & OE_Y)) refused = 6;
        else if (!waits) refused = execute(&state, word, lines, latch, &result);
        else if (pins & IEN) refused = 10;
        if (refused != 0) break;

        const unsigned written = pins & IEN ? 0 : result.width, changed = pins & (IEN | SRE) ? 0 : result.changed;
        uint16_t *const ram = &state.ram[word & 31];
        state.acc = (uint16_t)merge(result.destination & TO_ACC ? written : 0, result.y, state.acc);
        *ram = (uint16_t)merge(result.destination & TO_RAM ? written : 0, result.y, *ram);
        state.status = (uint8_t)merge(changed, result.status, old_status);
        state.latch = (uint16_t)latch;
        state.waiting = waits;
        state.waiting_word = (uint16_t)word;

        reports[0] = pins & OE_Y ? 0 : (uint16_t)result.y;
        reports[1] = pins & OE_Y ? 0 : (uint16_t)result.known;
        reports[2] = (uint16_t)condition(tests ? word >> 1 & 15 : pins & OE_T ? 12 : pins >> 8, old_status);
        reports[3] = pins & OE_T ? state.status & FLAGS : 16;
    }
    *machine = state;
    *refusal = (uint8_t)refused;
    return accepted;
}
