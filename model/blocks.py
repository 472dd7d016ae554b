"""Trace blocks: the check, the reader and the writer (document 01, runs, blocks and refusal numbers)."""

from collections import namedtuple

from operations import LINK, crc_step
from runs import MOST_CYCLES

BLOCK, MOST_RECORDS, RECORD_BYTES, MOST_BLOCKS = 512, 84, 6, 49
POLYNOMIAL = 0x1021

# The answer of the reader or the writer: a refusal and its block index, or 0, 0 and the words or bytes that it fills.
Answer = namedtuple("Answer", "refusal index filled")


def check_by_steps(data):
    """The register after CRCF over all bits, each put into LINK, top bit first, from register 0 (document 01, the check)."""
    register = 0
    for byte in data:
        for place in range(7, -1, -1):
            register = crc_step("CRCF", register, POLYNOMIAL, 16, LINK if byte >> place & 1 else 0).result
    return register


STEPS = [check_by_steps([byte]) for byte in range(256)]


def check_of(data):
    """The same check, eight bits at a time: the step is linear over bits, so a byte's eight steps are one entry of a table."""
    register = 0
    for byte in data:
        register = register << 8 & 0xFFFF ^ STEPS[register >> 8 ^ byte]
    return register


def words_of(data):
    """Bytes as words, low byte first."""
    return [data[place] | data[place + 1] << 8 for place in range(0, len(data), 2)]


def bytes_of(words):
    """Words as bytes, low byte first."""
    return b"".join(word.to_bytes(2, "little") for word in words)


def with_check(body):
    """A block's 510 bytes with their check, high byte first (document 01, 510-511 the check)."""
    return bytes(body) + check_of(body).to_bytes(2, "big")


def block_of(number, words, count=None, third=0, filling=b""):
    """A block by its number and its records; the count, byte 3 and the filling can be made wrong."""
    count = len(words) // 3 if count is None else count
    body = number.to_bytes(2, "little") + bytes([count, third]) + bytes_of(words) + filling
    return with_check(body.ljust(BLOCK - 2, b"\0"))


def refusal_of_block(block, number, last):
    """12, 13, 14 or 0 (document 01, per block 12, 13, 14); every block but the last has 84 records, the last 1 to 84."""
    if check_of(block[:510]) != int.from_bytes(block[510:], "big"):
        return 12
    if int.from_bytes(block[:2], "little") != number:
        return 13
    count = block[2]
    if not (1 if last else MOST_RECORDS) <= count <= MOST_RECORDS or block[3]:
        return 14
    return 14 if any(block[4 + RECORD_BYTES * count:510]) else 0


def read(trace, room):
    """The reader: 11, over 49 blocks, the blocks in turn, over 4,096 cycles, then the room (document 01, the reader)."""
    if len(trace) % BLOCK:
        return Answer(11, 0, None)
    blocks = [trace[place:place + BLOCK] for place in range(0, len(trace), BLOCK)]
    if len(blocks) > MOST_BLOCKS:
        return Answer(2, 0, None)
    words = []
    for number, block in enumerate(blocks):
        refusal = refusal_of_block(block, number, number == len(blocks) - 1)
        if refusal:
            return Answer(refusal, number, None)
        words += words_of(block[4:4 + RECORD_BYTES * block[2]])
    if len(words) > 3 * MOST_CYCLES:
        return Answer(2, 0, None)
    return Answer(3, 0, None) if room < len(words) else Answer(0, 0, words)


def write(words, room):
    """The writer: 1, 2, 3 (document 01, the writer)."""
    if len(words) % 3:
        return Answer(1, 0, None)
    if len(words) > 3 * MOST_CYCLES:
        return Answer(2, 0, None)
    full = 3 * MOST_RECORDS
    trace = b"".join(block_of(place // full, words[place:place + full]) for place in range(0, len(words), full))
    return Answer(3, 0, None) if room < len(trace) else Answer(0, 0, trace)
