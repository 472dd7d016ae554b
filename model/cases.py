"""The inputs of the tests.

Made here, byte for byte as they have been: block_counts/stdin, runtrace/stdin, unpacktrace/stdin (the text of packtrace, packed),
readlist/stdin, and of edge_cases/data the texts 0, bytes, feeds, long_4095 and long_4096 and the traces 0, 511, 512, waits, refused6,
refused7 and refused10. They are chosen cases, small loops, or words of the generator below with the seed that they have had.

Made here by a generator of our own, in place of random words whose rule is not known: the random traces among page_cases/stdin, the
trace of 4,096 cycles in edge_cases/data (25088.trace, with which those of greater length and check.trace begin), and the Y inputs of
listtrace/stdin, at which a listing does not look. The other cases of page_cases are what they have been.

Only read, because a list of them here would be the same text a second time: cycle_cases/stdin, run_cases/stdin, packtrace/stdin, the
other texts of edge_cases/data, the texts of example_cases/data, and the files args.

A cycle is written LINES:Y/PINS in hex; Y is 0 and the pins are 0010 where they are left out. The Y input "?" is chosen so that the check
of the block is 0: then the filling and the check are zeros alone, which a case need not spell out.
"""

from itertools import product

from blocks import BLOCK, block_of, bytes_of, check_of, with_check, write
from instructions import BYTE, FAMILIES, WORD, Instruction, decode, encode, line_of, takes_operand
from machine import DLE, IEN, OE_T, OE_Y, SRE
from text import listing_of, pack_text

EXAMPLE = "F8E1/200 12FF 7C81"
FULL = 84


class Generator:
    """A linear congruential generator over 32 bits, of which the upper 16 are given out."""

    def __init__(self, seed):
        self.state = seed

    def word(self):
        self.state = (1664525 * self.state + 1013904223) & 0xFFFFFFFF
        return self.state >> 16

    def below(self, limit):
        return self.word() * limit >> 16

    def pick(self, items):
        return items[self.below(len(items))]

    def uneven(self, count):
        """Words whose two bytes differ and are not 0, so that no byte can be lost or turned round unseen."""
        words = []
        while len(words) < count:
            word = self.word()
            if word & 0xFF and word >> 8 and word & 0xFF != word >> 8:
                words.append(word)
        return words


def cycles(text):
    """The words of cycles that are written as the head of this file says; None for a Y input "?"."""
    words = []
    for item in text.split():
        rest, _, pins = item.partition("/")
        lines, _, y = rest.partition(":")
        words += [int(lines, 16), None if y == "?" else int(y or "0", 16), int(pins or "10", 16)]
    return words


def tuned(words, number=0, check=0, **wrong):
    """A block whose word None is chosen so that the check of its bytes has a wanted value; the check that stands in it is 0."""
    def body_with(word):
        return block_of(number, [word if one is None else one for one in words], **wrong)[:510]

    start, rows = check_of(body_with(0)), []
    for place in range(16):
        effect, bits = check_of(body_with(1 << place)) ^ start, 1 << place
        for other, other_bits in rows:
            if effect ^ other < effect:
                effect, bits = effect ^ other, bits ^ other_bits
        rows = sorted(rows + [(effect, bits)], reverse=True)
    left, word = start ^ check, 0
    for effect, bits in rows:
        if left ^ effect < left:
            left, word = left ^ effect, word ^ bits
    return body_with(word) + b"\0\0"


def changed(block, place, value, right_check=True):
    """A block with another byte at a place, and with the check that is right for it or the one that it had."""
    block = block[:place] + bytes([value]) + block[place + 1:]
    return with_check(block[:510]) if right_check else block


def without_zeros(data, unit=1):
    """Data as a payload and the number of zeros after it."""
    length = len(data)
    while length and not any(data[length - unit:length]):
        length -= unit
    return data[:length], len(data) - length


def block_counts_input():
    """The cases of block_counts: checks, what is written, what is read."""
    generator, one, example = Generator(20240116), [0x1234, 0x5678, 0x9ABC], cycles(EXAMPLE)
    first, longer, three = generator.uneven(252), generator.uneven(255), generator.uneven(3)
    most, two, loose, tight = (generator.uneven(count) for count in (12288, 6, 3, 3))
    second, short_a, short_b, short_c = (generator.uneven(count) for count in (252, 249, 249, 249))
    blocks = [generator.uneven(252) for _ in range(48)]

    def small(number=0, count=1, at=None):
        block = tuned([0x7A31, None], number, count=count)
        return changed(block, at, 1, False) if at else block

    def zeros(count):
        return bytes(count)

    checks = [b"123456789", b"", zeros(1), b"\xFF", zeros(510), bytes(range(256)), b"A", b"\1", b"\x5A\xC3" + zeros(32766),
              block_of(0, example)[:510]]
    writes = [([], 0), ([], 16), (one, 512), (example, 512), (first, 512), (longer, 1024), (three + [0] * 501, 1100), ([0] * 507, 1536),
              (one, 513), (one, 1500), (most, 25088), ([0] * 12288, 32768), ([0] * 12096, 24576), (one[:1], 512), (one[:2], 512),
              (one + one[:1], 512), (one + one[:2], 512), ([0] * 12291, 32768), ([0] * 16383, 32768), (one, 511), (one, 10), (one, 0),
              (two + [0] * 249, 1023), (loose + [0] * 252, 512), (tight + [0] * 249, 511), ([0] * 12288, 25087), ([0] * 12292, 32768),
              ([0] * 12289, 32768), (one + one[:2], 0), ([0] * 12291, 0), ([0] * 12291, 25088), ([0] * 16384, 0)]
    a, b, e, o = block_of(0, first), block_of(1, second), block_of(0, example), block_of(0, one)
    trace = b"".join(block_of(number, words) for number, words in enumerate(blocks))
    swapped = e[:510] + e[:509:-1]
    reads = [(b"", 0), (b"", 5), (o, 3), (e, 9), (a, 252), (write(longer, 2048).filled, 255), (small(), 10),
             (block_of(0, longer[:252]) + small(1), 300), (small(0, 2), 6), (small(0, 84), 252), (write(most, 32768).filled, 12288),
             (zeros(1), 16), (small()[:511], 3), (small() + zeros(1), 16), (b"\xFF" + zeros(512), 0), (small() + zeros(256), 16),
             (zeros(25089), 16384), (zeros(25601), 16384), (zeros(32767), 0), (zeros(25600), 16384), (b"\xFF" + zeros(25599), 16384),
             (zeros(32768), 0), (zeros(25088), 16384), (b"\xFF" + zeros(25087), 16384), (zeros(512), 252)]
    reads += [(block, 9) for block in (swapped, e[:510] + zeros(2), changed(e, 511, 0x8C, False), changed(e, 510, 0xD2, False),
                                       changed(e, 509, 1, False), changed(e, 4, 0xF1, False))]
    reads += [(changed(a, 300, a[300] ^ 1, False) + small(1), 300), (a + small(1, at=9), 300), (small(1), 3), (small(256), 3),
              (a + small(), 300), (a + small(256), 300), (a + small(513), 300), (b + small(1), 300), (a + b + small(3), 600)]
    reads += [(changed(o, place, value), 9) for place, value in ((508, 1), (509, 0x80), (3, 2), (10, 1), (11, 0x40), (507, 1))]
    reads += [(block_of(0, short_a, filling=b"\5"), 252), (changed(a, 508, 0x20), 252), (block_of(0, one + example[:3], count=1), 9),
              (small(0, 0), 9), (small(0, 85), 300), (small(0, 255), 16384), (block_of(0, short_b) + small(1), 300)]
    reads += [(changed(a, place, value) + small(1), 300) for place, value in ((509, 1), (3, 0x80), (2, 85))]
    reads += [(a + block_of(1, []), 300), (a + small(1, 85), 600), (a + block_of(1, one, third=1), 300),
              (a + b + block_of(2, one, filling=b"\1"), 600), (changed(small(), 0, 5, False), 9), (changed(small(), 2, 85, False), 9),
              (changed(block_of(3, one), 508, 1), 9), (small(7, 0), 9), (block_of(0, short_c) + small(1, at=9), 300),
              (b + small(1, at=9), 300), (changed(a, 508, 1) + small(4), 300), (small(), 2), (small(), 0), (small(0, 84), 251),
              (a + small(1), 254), (a + small(1), 252), (a + small(1, at=9), 0), (small(9), 0), (small(0, 85), 0),
              (trace + small(48, 65), 12290), (trace + changed(block_of(48, [0] * 195), 394, 1), 12291)]
    cases = [("C", data, 0) for data in checks] + [("W", bytes_of(words), room) for words, room in writes]
    cases += [("R", data, room) for data, room in reads]
    made = b""
    for kind, data, room in cases:
        payload, rest = without_zeros(data, 2 if kind == "W" else 1)
        made += b"%s %06d %06d %06d\n" % (kind.encode(), len(payload), rest, room) + payload
    return made


VALUES = [0x0000, 0x0001, 0x0002, 0x007F, 0x0080, 0x0081, 0x00C0, 0x00FE, 0x00FF, 0x0100, 0x1021, 0x4000, 0x7140, 0x7340, 0x7F7F, 0x7FFF,
          0x8000, 0x8001, 0x8080, 0x8408, 0xABCD, 0xEF01, 0xF140, 0xF8E1, 0xFF00, 0xFF80, 0xFFFE, 0xFFFF]


def random_value(generator):
    """A corner value or any word."""
    return generator.pick(VALUES) if generator.below(2) else generator.word()


def random_pins(generator):
    """Pins that neither 5 nor 6 refuses."""
    pins = generator.below(16) << 8 | generator.pick([0, OE_T])
    pins |= generator.pick([DLE | OE_Y, DLE | OE_Y, OE_Y, 0, 0, 0, 0, 0])
    return pins | generator.pick([IEN, SRE, IEN | SRE] + [0] * 9)


def random_instruction(generator, refusal=0):
    """A word that is accepted, or gets a refusal of 7, 8 or 9."""
    while True:
        family = generator.pick(FAMILIES)
        a, b, c = (generator.pick(list(names)) for names in (family.a, family.b, family.c))
        word = generator.pick((0, 1)) << 15 | family.quadrant << 13 | a << 9 | b << 5 | (generator.below(32) if refusal == 7 else c)
        if decode(word)[0] == refusal:
            return word


def random_cycles(generator, count, refusal=0):
    """Words of accepted cycles, and of one more that gets a refusal of 5 to 10 where one is asked for."""
    words, waits = [], False
    for index in range(count + (1 if refusal else 0)):
        wanted = refusal if index == count else 0
        lines = random_instruction(generator, wanted if wanted in (7, 8, 9) else 0)
        while wanted == 10 and not takes_operand(decode(lines)[1]):
            lines = random_instruction(generator)
        begins = not waits and not wanted and takes_operand(decode(lines)[1])
        if begins and index == count - 1 and refusal > 6:
            lines, begins = 0x7140, False
        pins = random_pins(generator) & ~(IEN if begins else 0) | (IEN if wanted == 10 else 0)
        if wanted == 5:
            pins |= 1 << generator.pick((5, 6, 7, 12, 13, 14, 15))
        if wanted == 6:
            pins = pins & ~OE_Y | DLE
        words += [random_value(generator) if waits else lines, random_value(generator), pins]
        waits = begins
    return words


def long_trace_words():
    """4,096 random cycles, all accepted."""
    return random_cycles(Generator(4096), 4096)


# Chosen cycles of page_cases, by what they try: registers in the page, set and reset, document 01's examples, operands that look like
# instructions, bytes beside words, the latch, IEN and SRE, and old flags that come in.
PROGRAMS = """
D8E9/8 0009/A D8EA/8 000A/A D8F3/8 0013/A D8F4/8 0014/A D8E5/8 0005/A D8FD/8 C000/A D8FE/8 001E/A 83FD D905:?/0
7743 7543/200 7743/200 7543 9000/600 9000/500 FB01/700 FB01/700 7745/800 7545/800 7746/900 7546/900 7749/A00 7549/A00 774A/B00 754A/B00
  7140:?
D8E1/0 137F/0 89C1/0 09E1/0 D8E2/0 AAAA/0 A922:3156/C 0F0F/0 D8E3/0 15F0/0 A863/0 00FF D8E4/0 0000/0 D444 D8E4/0 8000/0 D444 D8E4/0
  0001/0 D444 5464 D8E5/0 017F/0 F8E1/0 EE01/0 1885 D8E6/0 8000/0 DF66 FF00 D8E7/0 8000/0 F8E1/0 1021/0 CC67 D8E7/0 8000/0 CC67 7545/0
  D8E8/0 0001/0 F8E1/0 8408/0 CD28 7545/0 D8E9/0 1280/0 4C09 7140/800 7140/0
F8E1/400 7140/400 7743/400 D8E1/400 7350 F8E4/0 735A/200 9C81/2 F140 58E2 F8E1 D8E3 7144/11 C544/2 7345 C505/8 7146/12 7140:?
D8E1/8 1200/A D8E2/8 3480/A D8E3/8 5601/A D8E4/8 78FF/A D8E5/8 0100/A D8E6/8 FF00/A D8E7/8 A57F/A F8E1/0 BB01/0 1841 1802 1884 1063 5D64
  5F65 5B66 5906 4FC7 41E7 4C22 4C82 4CC3 1BE7 6F82 6F85 6187 5661 FF0F 4F44 7F01 0046 9040 7D41:FFFF/1C FD41 F920
F8C1:DEAD/C F8C0:FFFF D8C1:1111/D F8C0:2222/8 CAC2:F0F0/C FF3C/0 CAC3:0FF0/C FFFF:BCDE/C 7140:CAFE/C FAC0/0 7340:0B0B/C F940/0
  F8C1:ABCD/E 7140:?
FB05/11 FB05/12 FB05/13 FB05 DB07/11 DD66/12 7543/12 7545/801 754A/B02 7549/A00 CC06/12 7140/800 EC81/1 7140/800 CC87/11 7140/800 F8E1/2
  0AB0/12 F8E1/0 1111/11 F8E4/2 00CA F8E4 0000/12 EF40/1 CF49:?/1
""".replace("\n  ", " ").strip().split("\n")
OLD_FLAGS = ("D8E1/8 8001/A D8E2/8 0001/A D8E3/8 4000/A F8E1/0 1021/0 CC41 CC41 CCC2 CCC2 CCC2 9040 FF00 CCE2 CCE2 FB00 CD03 7743/0 CD03 "
             "7745/0 6CC0 7745/0 CC63 CC63 7745/0 CD22 CD22 7140/800 ")
# A word that gets 7 for each place where a family has a gap.
GAPS = ("8285 0800 8F61 1B41 85A3 2363 D823 5EA3 4D20 CE60 CD40 D020 5200 E282 EC04 6F02 EE61 EF44 F4C4 E593 659A F342 7343 7141 6140 "
        "7744 F543 C060 C920 D140 4F60 EF60 7723 7565 7740").split()
# The refusals that random traces end with, and the cycles that are accepted before them.
RANDOM_ENDS = [(5, 11), (5, 16), (5, 9), (5, 10), (5, 6), (6, 26), (7, 17), (7, 12), (7, 5), (7, 7), (7, 4), (8, 20), (8, 3), (9, 30),
               (9, 1), (9, 8), (9, 2), (9, 13), (9, 1), (10, 18), (10, 2), (7, 100)]


def page_of_cycles(text):
    """A trace of one block of written cycles."""
    words = cycles(text)
    return tuned(words) if None in words else block_of(0, words)


def all_conditions():
    """Every T input and every Test over two statuses, then some with IEN or SRE high."""
    text = ""
    for status, pins in (("005A", 0), ("00A5", 0x100)):
        text += "F8E4/%X %s " % (pins, status) + "".join("7140/%X " % (code << 8) for code in range(16))
        text += "".join("%04X/%X " % (0x7340 + 2 * code, 0x310 if code % 2 == 0 else 11 - code << 8) for code in range(12))
    return text + "734A/1 734A/C01 734A/11 7340/18 7348/2 7356/D00 7140/701 7140/710"


def page_traces():
    """The traces of page_cases."""
    example, question = cycles(EXAMPLE), cycles("F8E1/200 12FF 7C81:?")
    e, steps = block_of(0, example), cycles(" ".join("%04X" % (0xDD60 + index % 32) for index in range(FULL)))
    full, noop = block_of(0, steps), [0x7140, 0, 0]
    traces = [e, b"", bytes(1), bytes(26111), e + bytes(1), bytes(25600), b"\5\0\xC8\t" + bytes(508), tuned(question, check=0x8000),
              tuned(question, check=1), full + block_of(1, example)[:510] + block_of(1, example)[:509:-1],
              tuned(question, 1, count=85), tuned(question, 256), full + bytes(BLOCK), full + tuned(question, 257), bytes(BLOCK),
              tuned(question, count=85), tuned(question, third=1), changed(block_of(0, noop), 10, 1),
              changed(block_of(0, noop), 507, 0x80), changed(full, 508, 1), changed(e, 509, 1),
              block_of(0, steps[:249]) + tuned(question, 1), full + block_of(1, [])]
    traces += [page_of_cycles(text) for text in ("F140:BEEF/C F8E1/0 1234:?/0", "7140:BEEF/100C 7140:?/0", "F8E1:BEEF/D 1234:?/0")]
    generator = Generator(116)
    for refusal, count in RANDOM_ENDS:
        words = random_cycles(generator, count, refusal) + cycles("E59C 7140:?")
        traces.append(tuned(words) if count < 80 else block_of(0, words[:3 * FULL]) + tuned(words[3 * FULL:], 1))
    traces += [page_of_cycles(text) for text in ("D8FF:0BAD/1C 1234:FACE/800C 7140:?/0", "F8E4/600 ABEF CB6A:C0DE/90C F140:FACE/4 7140:?/0",
                                                 "F8E5:EEDC/C0C FEDC:?/F00 BBCD:1111/B08", "5EEF:?/602")]
    values = ["%04X" % (number + 1 if number % 4 == 0 else (number + 1) * 0x0A5F & 0xFFFF) for number in range(32)]
    moves = ["%04X:%04X/1C 7140%s/%X00" % (0x78C4, 0xFFF0 - 0x110F * code, "" if code else ":?", code) for code in range(16)]
    flags = "".join("F8E4/0 %s ED00 F8E4/0 %s 6CE0 " % (status, status) for status in "0001 0008 0004 000C 0002 0010 00E0".split())
    traces += [page_of_cycles(text) for text in [
        " ".join("%04X/8 %s/A" % (0xD8E0 + number, values[number]) for number in range(31, -1, -1)), "D8E0/8 0100:?/A", "D8FF/8 FEED:?/A",
        PROGRAMS[0], all_conditions(), " ".join(moves) + " FB04 78C4/1C"] + PROGRAMS[1:] + [OLD_FLAGS + flags[:-1] + ":?"]]
    traces += [write(random_cycles(generator, count), 1 << 20).filled for count in (FULL, FULL + 1)]
    numbered = [[word for index in range(FULL) for word in (0x7140, number << 8 | index, 0x10)] for number in range(49)]
    traces += [tuned(question, count=4), b"".join(block_of(number, words) for number, words in enumerate(numbered)),
               write(long_trace_words(), 1 << 20).filled]
    traces += [tuned(cycles("%s:?/F00" % word)) for word in GAPS]
    noops = [block_of(number, noop * FULL) for number in range(48)]
    return traces + [b"".join(noops) + block_of(48, noop * 65), b"".join(noops) + block_of(48, noop * FULL, third=1)]


def page_cases_input():
    """The traces of page_cases, each after its header."""
    return b"".join(b"%06d %06d\n" % (len(payload), rest) + payload for payload, rest in map(without_zeros, page_traces()))


OPERANDS = (0x7140, 0x7340, 0x0000, 0xFFFF, 0xF140, 0x0ABC)
SINGLE_LINES = ["", "SOR", "SORX W MOVE SOSE 7", "SOR X MOVE SOSE 7", "SOR W MOVE SOA 7", "SOR W MOVE SOSE", "SOR W MOVE SOSE 32",
                "SOR W MOVE SOSE 07", "SOR W MOVE SOSE 7 X", "SOR W MOVE SOSE 07 X", "NOOP W", "NOOP W X", "PRTNR B PRA PRTA NRY",
                "BOR1 B 8 SETNR 0", "  SOR  W MOVE SOSE 7 "]
SINGLE_DATA = ["0F1A", "0f1A", "0F1", "0F1A 0", ""]
ODD_LINES = ["", "SOR", "SOR W", "SOR W MOVE", "SOR W MOVE SOSE", "SOR W MOVE SOSE 32", "SOR W MOVE SOSE 07", "SOR W MOVE SOSE 00",
             "SOR W MOVE SOSE +7", "SOR W MOVE SOSE 7 X", "SOR W MOVE SOSE 07 X", "SOR W MOVE SOSE X Y", "sor W MOVE SOSE 7",
             "SORX W MOVE SOSE 7", "SOR X MOVE SOSE 7", "SOR B MOVE SOA 7", "SONR B MOVE SOAR NRY", "NOOP W X", "NOOP B ",
             "  NOOP  B  ", "ROTM W 16 MDAI 0", "ROTM W 15 MDAI 31", "00FF", "ROTM W 15 MDAI 31", "00fF", "00FF", "ROTM W 15 MDAI 31",
             "00FF 1", "ROTM W 15 MDAI 31", "", "ROTM W 15 MDAI 31", " 0ABC ", "TOR1 W TORIA ADD 3"]


def listed_words():
    """Words, rising, that show something of their family for the first time, with operands that look like instructions."""
    seen, words, operands = set(), [], 0
    for word in range(65536):
        refusal, line = line_of(word)
        items = set() if refusal else {(line.split()[0], item) for item in line.split()[1:]}
        if items - seen:
            seen |= items
            words.append(word)
            if takes_operand(decode(word)[1]):
                words.append(OPERANDS[operands % len(OPERANDS)])
                operands += 1
    return words


def listtrace_input():
    """A trace of the listed words, of words that are refused, and of one that waits at the end."""
    generator = Generator(1)
    refused = [0x01A0, 0x01A1, 0x01A2, 0x5080, 0x5081, 0x5180, 0x5181, 0xF140, 0x7140, 0x0400]
    words = [word for lines in listed_words() + refused for word in (lines, generator.word(), 0x0010)]
    return write(words, 1 << 20).filled


def refused_lines():
    """The lines that read and get 7, 8 or 9, family by family."""
    for family in FAMILIES:
        for mode, a, b, c in product((BYTE, WORD), family.a, family.b, family.c):
            if encode(Instruction(family.name, mode, a, b, c))[0]:
                names = (family.a[a], family.b[b], family.c[c])
                yield " ".join([family.name, "BW"[mode]] + [name for name in names if name is not None])


def readlist_input():
    """The listing of the listed words, the lines that get 7, 8 or 9, and odd lines; the last one has no line feed."""
    listing, _ = listing_of([word for lines in listed_words() for word in (lines, 0, 0x10)])
    return listing.encode() + "\n".join(["NOOP B"] + list(refused_lines()) + ODD_LINES).encode()


def stepped(start, count):
    """Words that rise by 9E37 hex, as those of the hand-written texts of edge_cases do."""
    return [start + 0x9E37 * index & 0xFFFF for index in range(count)]


def edge_files(examples):
    """The traces and the simple texts of edge_cases/data; examples are texts by their names."""
    e, most = block_of(0, cycles(EXAMPLE)), write(long_trace_words(), 1 << 20).filled
    rest = b"".join(block_of(49 + number, stepped(0x4C24 + 0xBE24 * number & 0xFFFF, 252)) for number in range(9))
    last = block_of(1, stepped(0x6739, 120))
    traces = {"0": b"", "511": e[:511], "512": e, "25088": most, "25089": most + b"\x31", "25600": most + block_of(49, stepped(0xB98C, 60)),
              "26112": most + rest[:BLOCK] + block_of(50, stepped(0xCE70, 252)), "30208": most + rest + block_of(58, stepped(0x8C94, 3)),
              "check": most[:BLOCK] + changed(last, 109, last[109] ^ 0x20, False),
              "waits": pack_text(examples["ends_waiting"])[0], "refused10": pack_text(examples["refused_run"])[0],
              "refused6": block_of(0, cycles(EXAMPLE + " F8E1/200 7140:BEEF/B14 7140")),
              "refused7": block_of(0, cycles(EXAMPLE + " F140:BEEF/1C 7140 C985"))}
    traces.update({"26113": traces["26112"] + b"\x5A", "30209": traces["30208"] + b"\xC3"})
    noop = b"NOOP B\n"
    texts = {"0": b"", "feeds": b"\n\n", "bytes": b"".join(bytes([byte]) + b" NOOP B%c\n" % byte for byte in range(256) if byte != 10),
             "long_4095": noop + b" " * 4089 + noop + noop, "long_4096": noop + b"NOOP X\n" + b" " * 4090 + noop + noop}
    files = {name + ".trace": data for name, data in traces.items()}
    files.update({name + ".txt": data for name, data in texts.items()})
    return files
