"""What the instructions do: arithmetic and flags over a width of 8 or 16 bits (document 01, what the instructions do)."""

from collections import namedtuple

Z, C, N, OVR, LINK, FLAG1, FLAG2, FLAG3 = (1 << place for place in range(8))

# What is worked out: the result at its width, and the whole status that would follow.
Outcome = namedtuple("Outcome", "result status")


def ones(width):
    """The mask of a width."""
    return (1 << width) - 1


def bit(word, place):
    """One bit of a word."""
    return word >> place & 1


def flags(result, width, status, carry=0, overflow=0, negative=None):
    """N is the top bit and Z the being zero; C and OVR are 0 unless given; bits 4 to 7 stay."""
    if negative is None:
        negative = bit(result, width - 1)
    return status & 0xF0 | (Z if result == 0 else 0) | (C if carry else 0) | (N if negative else 0) | (OVR if overflow else 0)


def plain(result, width, status):
    """A result that sets N and Z and leaves C and OVR 0."""
    result &= ones(width)
    return Outcome(result, flags(result, width, status))


def added(first, second, carry_in, width, status):
    """A sum; C is the carry out and OVR the xor of the last two carries (document 01, operations)."""
    first, second = first & ones(width), second & ones(width)
    total = first + second + carry_in
    carry = bit(total, width)
    carry_below = bit((first & ones(width - 1)) + (second & ones(width - 1)) + carry_in, width - 1)
    result = total & ones(width)
    return Outcome(result, flags(result, width, status, carry, carry ^ carry_below))


def two_operands(name, r, s, width, status):
    """Operations 0 to 11 (document 01, operations); a minus adds the complement and 1, or the complement and stored C."""
    stored = 1 if status & C else 0
    sums = {"SUBR": (s, ~r, 1), "SUBRC": (s, ~r, stored), "SUBS": (r, ~s, 1), "SUBSC": (r, ~s, stored),
            "ADD": (r, s, 0), "ADDC": (r, s, stored)}
    if name in sums:
        first, second, carry_in = sums[name]
        return added(first, second, carry_in, width, status)
    logical = {"AND": r & s, "NAND": ~(r & s), "EXOR": r ^ s, "NOR": ~(r | s), "OR": r | s, "EXNOR": ~(r ^ s)}
    result = logical[name] & ones(width)
    return Outcome(result, flags(result, width, status, negative=0 if name == "EXNOR" else None))


def one_operand(name, source, width, status):
    """MOVE, COMP, INC and NEG (document 01, SOR and operations)."""
    if name == "INC":
        return added(source, 0, 1, width, status)
    if name == "NEG":
        return added(0, ~source, 1, width, status)
    return plain(source if name == "MOVE" else ~source, width, status)


def bit_operation(name, place, source, width, status):
    """Set, reset and test a bit, load, add and subtract a power of two (document 01, BOR1, BOR2, BONR and test bit)."""
    power = 1 << place
    if name == "A2N":
        return added(source, power, 0, width, status)
    if name == "S2N":
        return added(source, ~power, 1, width, status)
    results = {"SETN": source | power, "RSTN": source & ~power, "TSTN": source & power, "LD2N": power, "LDC2N": ~power}
    return plain(results[name], width, status)


def shifted(name, source, width, status):
    """Shifts; what comes in is of the old status, and LINK takes the bit shifted out (document 01, shifts)."""
    source &= ones(width)
    sign = bool(status & N) != bool(status & OVR)
    comes_in = {"Z": False, "1": True, "L": bool(status & LINK), "C": bool(status & C), "OV": sign}[name[4:]]
    if name.startswith("SHUP"):
        out, result = bit(source, width - 1), source << 1 & ones(width) | comes_in
    else:
        out, result = bit(source, 0), source >> 1 | comes_in << width - 1
    return Outcome(result, flags(result, width, with_link(status, out)))


def with_link(status, link):
    """A status with its LINK replaced."""
    return status & ~LINK | (LINK if link else 0)


def rotated(source, place, width):
    """Rotated up by a number of bits, modulo the width (document 01, rotates)."""
    source, place = source & ones(width), place % width
    return (source << place | source >> width - place) & ones(width)


def rotation(place, source, width, status):
    """A rotate with its flags; N is the top bit of the result (document 01, rotates)."""
    return plain(rotated(source, place, width), width, status)


def merged(place, u, r, mask, width, status):
    """Rotated U where the mask is 1, else R (document 01, merge)."""
    return plain(rotated(u, place, width) & mask | r & ~mask, width, status)


def compared(place, u, r, mask, width, status):
    """R xor rotated U, where the mask is 0 (document 01, compare)."""
    return plain((r ^ rotated(u, place, width)) & ~mask, width, status)


def prioritized(source, mask, width, status):
    """0 if nothing is left, else 1 for the top bit, counting down (document 01, prioritize)."""
    left = source & ~mask & ones(width)
    return plain(width - left.bit_length() + 1 if left else 0, width, status)


def crc_step(name, register, polynomial, width, status):
    """One step of the check, forward or mirrored (document 01, CRCF and CRCR); LINK takes the bit that leaves."""
    forward = name == "CRCF"
    out = bit(register, width - 1 if forward else 0)
    moved = register << 1 & ones(width) if forward else register >> 1
    result = moved ^ (polynomial if out ^ bool(status & LINK) else 0)
    return Outcome(result, flags(result, width, with_link(status, out)))


def written(old, result, width):
    """A word after a result is written over it; the byte mode keeps the upper byte (document 01, byte mode)."""
    return old & ~ones(width) | result & ones(width)


def condition(code, status):
    """The value of CT for a code of 0 to 11 (document 01, CT codes)."""
    z, c, n, ovr, link, flag1, flag2, flag3 = (bit(status, place) for place in range(8))
    return [(n ^ ovr) | z, n ^ ovr, z, ovr, 0, c, z | (1 - c), n, link, flag1, flag2, flag3][code]
