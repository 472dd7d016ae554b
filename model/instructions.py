"""Words and named instructions: document 01, the instruction list; names as request 1 of document 02 asks for them."""

from collections import namedtuple

# A family of the list: its name, quadrant, modes, and the values of its fields with their names in the listing.
Family = namedtuple("Family", "name quadrant modes a b c")

# A named instruction. The mode is 0 for byte and 1 for word (document 01: bit 15 is the mode).
Instruction = namedtuple("Instruction", "family mode a b c")

BYTE, WORD = 0, 1


def field(text):
    """A field's values and names, from a text like "0 NRY 1 NRA"."""
    items = text.split()
    return {int(value): name for value, name in zip(items[::2], items[1::2])}


def only(value):
    """A field with a single value, which is not printed."""
    return {value: None}


def numbers(limit):
    """A field that is a number, printed in decimal."""
    return {value: str(value) for value in range(limit)}


N = numbers(16)
REGISTER = numbers(32)
SINGLE = field("12 MOVE 13 COMP 14 INC 15 NEG")
PAIR = field("0 SUBR 1 SUBRC 2 SUBS 3 SUBSC 4 ADD 5 ADDC 6 AND 7 NAND 8 EXOR 9 NOR 10 OR 11 EXNOR")
SHIFT = field("0 SHUPZ 1 SHUP1 2 SHUPL 4 SHDNZ 5 SHDN1 6 SHDNL 7 SHDNC 8 SHDNOV")
MASK = field("8 PRA 10 PRZ 11 PRI")
TO_Y_OR_ACC = field("0 NRY 1 NRA")
TO_ANY = field("0 NRY 1 NRA 4 NRS 5 NRAS")
BOTH_MODES, BYTE_ONLY, WORD_ONLY = (BYTE, WORD), (BYTE,), (WORD,)

# Document 01, the instruction list, quadrant by quadrant; the names are those of document 001's instruction tables.
FAMILIES = [
    Family("TOR1", 0, BOTH_MODES, field("0 TORAA 2 TORIA 3 TODRA 8 TORAY 10 TORIY 11 TODRY 12 TORAR 14 TORIR 15 TODRR"), PAIR, REGISTER),
    Family("ROTR1", 0, BOTH_MODES, N, field("12 RTRA 14 RTRY 15 RTRR"), REGISTER),
    Family("ROTR2", 1, BOTH_MODES, N, field("0 RTAR 1 RTDR"), REGISTER),
    Family("ROTC", 1, BOTH_MODES, N, field("2 CDAI 3 CDRI 4 CDRA 5 CRAI"), REGISTER),
    Family("ROTM", 1, BOTH_MODES, N, field("7 MDAI 8 MDAR 9 MDRI 10 MDRA 12 MARI 14 MRAI"), REGISTER),
    Family("SOR", 2, BOTH_MODES, SINGLE,
           field("0 SORA 2 SORY 3 SORS 4 SOAR 6 SODR 7 SOIR 8 SOZR 9 SOZER 10 SOSE 11 SORR"), REGISTER),
    Family("BOR2", 2, BOTH_MODES, N, field("12 LD2NR 13 LDC2NR 14 A2NR 15 S2NR"), REGISTER),
    Family("TOR2", 2, BOTH_MODES, field("1 TODAR 2 TOAIR 5 TODIR"), PAIR, REGISTER),
    Family("SHFTR", 2, BOTH_MODES, field("6 SHRR 7 SHDR"), SHIFT, REGISTER),
    Family("CRCF", 2, WORD_ONLY, only(6), only(3), REGISTER),
    Family("CRCR", 2, WORD_ONLY, only(6), only(9), REGISTER),
    Family("PRT1", 2, BOTH_MODES, field("8 PRIA 10 PR1Y 11 PR1R"), field("7 RPT1A 9 PR1D"), REGISTER),
    Family("PRT2", 2, BOTH_MODES, MASK, field("0 PR2A 2 PR2Y"), REGISTER),
    Family("PRT3", 2, BOTH_MODES, MASK, field("3 PR3R 4 PR3A 6 PR3D"), REGISTER),
    Family("SVSTR", 2, BOTH_MODES, only(7), only(10), REGISTER),
    Family("SONR", 3, BOTH_MODES, SINGLE, field("4 SOA 6 SOD 7 SOI 8 SOZ 9 SOZE 10 SOSE"), TO_ANY),
    Family("TONR", 3, BOTH_MODES, field("1 TODA 2 TOAI 5 TODI"), PAIR, TO_ANY),
    Family("SHFTNR", 3, BOTH_MODES, field("6 SHA 7 SHD"), SHIFT, TO_Y_OR_ACC),
    Family("BOR1", 3, BOTH_MODES, N, field("13 SETNR 14 RSTNR 15 TSTNR"), REGISTER),
    Family("BONR", 3, BOTH_MODES, N, only(12),
           field("0 TSTNA 1 RSTNA 2 SETNA 4 A2NA 5 S2NA 6 LD2NA 7 LDC2NA "
                 "16 TSTND 17 RSTND 18 SETND 20 A2NDY 21 S2NDY 22 LS2NY 23 LDC2NY")),
    Family("ROTNR", 3, BOTH_MODES, N, only(12), field("24 RTDY 25 RTDA 28 RTAY 29 RTAA")),
    Family("PRTNR", 3, BOTH_MODES, MASK, field("4 PRTA 6 PRTD"), TO_Y_OR_ACC),
    Family("SVSTNR", 3, BOTH_MODES, only(7), only(10), TO_Y_OR_ACC),
    Family("SETST", 3, BYTE_ONLY, only(11), only(10), field("3 SONCZ 5 SL 6 SF1 9 SF2 10 SF3")),
    Family("RSTST", 3, BYTE_ONLY, only(10), only(10), field("3 RONCZ 5 RL 6 RF1 9 RF2 10 RF3")),
    Family("TEST", 3, BYTE_ONLY, only(9), only(10),
           field("0 TNOZ 2 TNO 4 TZ 6 TOVR 8 TLOW 10 TC 12 TZC 14 TN 16 TL 18 TF1 20 TF2 22 TF3")),
    Family("NOOP", 3, BYTE_ONLY, only(8), only(10), only(0)),
]
BY_NAME = {family.name: family for family in FAMILIES}

# Document 01, the instruction list: the field and its values by which an instruction takes an I operand.
WITH_OPERAND = {"TOR1": ("a", (2, 10, 14)), "ROTC": ("b", (2, 3, 5)), "ROTM": ("b", (7, 9, 12, 14)), "SOR": ("b", (7,)),
                "TOR2": ("a", (2, 5)), "PRT2": ("a", (11,)), "PRT3": ("a", (11,)), "SONR": ("b", (7,)), "TONR": ("a", (2, 5)),
                "PRTNR": ("a", (11,))}


def refusal_of(instruction):
    """7, 8, 9, or 0 where the instruction is accepted (document 01, refusal numbers 7 to 9, in that order)."""
    family = BY_NAME.get(instruction.family)
    if family is None or instruction.mode not in family.modes:
        return 7
    if not (instruction.a in family.a and instruction.b in family.b and instruction.c in family.c):
        return 7
    if family.name in ("PRT3", "PRTNR") and instruction.a == 8 and instruction.b == 4:
        return 8
    if family.name in ("BOR1", "BOR2", "BONR") and instruction.mode == BYTE and instruction.a > 7:
        return 9
    return 0


def decode(word):
    """A word's refusal (0 where it is accepted) and its named instruction (document 01, the instruction list)."""
    mode, quadrant, a, b, c = word >> 15, word >> 13 & 3, word >> 9 & 15, word >> 5 & 15, word & 31
    for family in FAMILIES:
        if family.quadrant == quadrant and a in family.a and b in family.b and c in family.c and mode in family.modes:
            instruction = Instruction(family.name, mode, a, b, c)
            return refusal_of(instruction), instruction
    return 7, None


def encode(instruction):
    """A named instruction's refusal (0 where it is accepted) and its word."""
    refusal = refusal_of(instruction)
    if refusal:
        return refusal, None
    quadrant = BY_NAME[instruction.family].quadrant
    return 0, instruction.mode << 15 | quadrant << 13 | instruction.a << 9 | instruction.b << 5 | instruction.c


def takes_operand(instruction):
    """Whether the instruction takes an I operand, and so two cycles."""
    if instruction.family not in WITH_OPERAND:
        return False
    name, values = WITH_OPERAND[instruction.family]
    return getattr(instruction, name) in values


def line_of(word):
    """A word's refusal and its line: family, B or W, and the fields with a choice (document 02, request 1)."""
    refusal, instruction = decode(word)
    if refusal:
        return refusal, None
    family = BY_NAME[instruction.family]
    names = [family.a[instruction.a], family.b[instruction.b], family.c[instruction.c]]
    return 0, " ".join([family.name, "BW"[instruction.mode]] + [name for name in names if name is not None])


def items_of(line):
    """The items of a line with their columns from 1; a blank is the byte 20 hex alone (document 02, request 1)."""
    items, column = [], 1
    for piece in line.split(b" "):
        if piece:
            items.append((piece.decode("latin-1"), column))
        column += len(piece) + 1
    return items


def word_of(line):
    """The word of a line and 0, 0; or None, the refusal and its column (document 02, request 1, judged left to right)."""
    items = items_of(line)
    missing = len(line) + 1

    def item(place):
        return items[place] if place < len(items) else (None, missing)

    name, column = item(0)
    if name not in BY_NAME:
        return None, 20, column
    family = BY_NAME[name]
    letter, column = item(1)
    if letter not in ("B", "W"):
        return None, 20, column
    values, place = [], 2
    for names in (family.a, family.b, family.c):
        if None in names.values():
            values.append(next(iter(names)))
            continue
        text, column = item(place)
        found = [value for value, spelt in names.items() if spelt == text]
        if not found:
            return None, 21 if names in (N, REGISTER) else 20, column
        values.append(found[0])
        place += 1
    if place < len(items):
        return None, 22, items[place][1]
    refusal, word = encode(Instruction(name, "BW".index(letter), *values))
    return (None, refusal, 0) if refusal else (word, 0, 0)


def data_of(line):
    """The data of a line and 0, 0; or None, the refusal and its column (document 02, request 1: four hex digits)."""
    items = items_of(line)
    if not items:
        return None, 21, len(line) + 1
    text, column = items[0]
    if len(text) != 4 or any(digit not in "0123456789ABCDEF" for digit in text):
        return None, 21, column
    return (None, 22, items[1][1]) if len(items) > 1 else (int(text, 16), 0, 0)
