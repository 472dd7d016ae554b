"""Texts: the hex text of a trace, printed pages, listings, and what the programs say of a refusal.

The page is document 01's (examples, `runtrace`); the listing is request 1 of document 02; the hex text and the remarks are
described in examples/README.md and docs/DECISIONS.md, 41 to 43, 58 to 62 and 70 to 74.
"""

from instructions import data_of, decode, line_of, takes_operand, word_of
from blocks import MOST_BLOCKS, read, write
from runs import MOST_CYCLES, run_from_zero

HEX_DIGITS = b"0123456789ABCDEFabcdef"
BLANKS = b" \t\r"
NAMED_LINES = 20
LONGEST_LINE = 4095
ANY_ROOM = 1 << 30


def fault_of(line):
    """The words of a text line, and its first fault as a column and what is expected there, or None."""
    digits, column, gap = b"", 0, True
    for column, byte in enumerate(line, 1):
        words = len(digits) // 4
        if len(digits) % 4:
            if byte not in HEX_DIGITS:
                return None, (column, "a hex digit")
            digits += bytes([byte])
            gap = False
        elif byte in BLANKS:
            gap = True
        elif byte == ord("#"):
            if words in (0, 3):
                return words_in(digits), None
            return None, (column, "a word")
        elif words == 3:
            return None, (column, "the end of the line")
        elif not gap:
            return None, (column, "a blank")
        elif byte not in HEX_DIGITS:
            return None, (column, "a hex digit")
        else:
            digits, gap = digits + bytes([byte]), False
    if len(digits) % 4:
        return None, (column + 1, "a hex digit")
    if len(digits) // 4 in (1, 2):
        return None, (column + 1, "a word")
    return words_in(digits), None


def words_in(digits):
    """The words that hex digits spell, four to a word."""
    return [int(digits[place:place + 4], 16) for place in range(0, len(digits), 4)]


def read_text(text):
    """The words of a text, and the faults of its bad lines as lines of their own."""
    words, faults = [], []
    for number, line in enumerate(text.split(b"\n"), 1):
        found, fault = fault_of(line)
        if fault:
            faults.append("line %d, column %d: expected %s\n" % (number, *fault))
        else:
            words += found
    return words, faults


def words_text(words):
    """The words of cycles, three to a line (what `unpacktrace` prints)."""
    return "".join("%04X %04X %04X\n" % tuple(words[place:place + 3]) for place in range(0, len(words), 3))


def digit_or_dash(value, limit):
    """A hex digit, or "-" where there is none."""
    return "%X" % value if value < limit else "-"


def state_line(machine):
    """The line of the state (document 01, examples)."""
    wait = "-" if machine.waiting is None else "%04X" % machine.waiting
    return "acc %04X d %04X st %02X wait %s" % (machine.acc, machine.d, machine.status, wait)


def page_of_run(result):
    """The page of a run (document 01, examples)."""
    lines = ["%d %04X %04X %s %s" % (number, y, mask, digit_or_dash(test, 2), digit_or_dash(t, 16))
             for number, (y, mask, test, t) in enumerate(result.reports)]
    lines.append(state_line(result.machine))
    lines += ["r%02d %04X" % (number, word) for number, word in enumerate(result.machine.ram) if word]
    if result.ending == "refused":
        lines.append("refused %d at %d" % (result.refusal, result.index))
    else:
        lines.append("%s %d" % (result.ending, result.accepted))
    return "\n".join(lines) + "\n"


def page_of(trace):
    """What `runtrace` prints of a trace."""
    answer = read(trace, ANY_ROOM)
    if answer.refusal:
        return "refused %d at %d\n" % (answer.refusal, answer.index)
    return page_of_run(run_from_zero(answer.filled))


def listing_of(words):
    """The lines of a trace's instruction lines, and the cycle and number of the first refused word, or None."""
    lines, first, data_next = [], None, False
    for index, word in enumerate(words[::3]):
        if data_next:
            lines.append("%04X\n" % word)
            data_next = False
            continue
        refusal, line = line_of(word)
        lines.append("refused %d\n" % refusal if refusal else line + "\n")
        if refusal and first is None:
            first = index, refusal
        data_next = not refusal and takes_operand(decode(word)[1])
    return "".join(lines), first


def read_listing(text):
    """What `readlist` prints of a listing, how many lines it cannot read, and whether a line is too long for it."""
    lines, bad, data_next = [], 0, False
    pieces = text.split(b"\n")
    for line in pieces if pieces[-1] else pieces[:-1]:
        if len(line) > LONGEST_LINE:
            return "".join(lines), bad, True
        word, refusal, column = data_of(line) if data_next else word_of(line)
        data_next = not data_next and not refusal and takes_operand(decode(word)[1])
        lines.append("refused %d at %d\n" % (refusal, column) if refusal else "%04X\n" % word)
        bad += 1 if refusal else 0
    return "".join(lines), bad, False


def remark(program, refusal, index, words=()):
    """The line on standard error that explains a refusal (docs/DECISIONS.md, 58); nothing where no test shows its wording."""
    lines, _, pins = words[3 * index:3 * index + 3] if words else (0, 0, 0)
    reasons = {
        2: ("as a whole", "there are more than %s cycles or %d blocks" % (format(MOST_CYCLES, ","), MOST_BLOCKS)),
        6: ("at cycle %d" % index, "the pins %04X have DLE high while OE_Y is low" % pins),
        7: ("at cycle %d" % index, "the word %04X is not on the instruction list" % lines),
        10: ("at cycle %d" % index, "the word %04X takes an operand and is begun with IEN high" % lines),
        11: ("as a whole", "the length is not a multiple of 512 bytes"),
        12: ("at block %d" % index, "its check is not that of its bytes"),
    }
    return "%s: refused %d %s: %s\n" % (program, refusal, *reasons[refusal]) if refusal in reasons else ""


def run_trace(trace):
    """What `runtrace` writes and says."""
    answer = read(trace, ANY_ROOM)
    if answer.refusal:
        return page_of(trace).encode(), remark("runtrace", answer.refusal, answer.index)
    result = run_from_zero(answer.filled)
    said = ""
    if result.refusal:
        said = remark("runtrace", result.refusal, result.index, answer.filled)
    elif result.machine.waiting is not None:
        said = "runtrace: note: the run ends waiting for the operand of %04X\n" % result.machine.waiting
    return page_of_run(result).encode(), said


def unpack_trace(trace):
    """What `unpacktrace` writes and says."""
    answer = read(trace, ANY_ROOM)
    if answer.refusal:
        return b"", remark("unpacktrace", answer.refusal, answer.index)
    return words_text(answer.filled).encode(), ""


def pack_text(text):
    """What `packtrace` writes and says."""
    words, faults = read_text(text)
    if faults:
        mark = text[:3] == b"\xEF\xBB\xBF" or text[:2] in (b"\xFF\xFE", b"\xFE\xFF")
        named = ["packtrace: the text begins with a byte order mark\n"] if mark else []
        more = len(faults) - NAMED_LINES
        rest = ["packtrace: more lines that cannot be read: %d\n" % more] if more > 0 else []
        return b"", "".join(named + faults[:NAMED_LINES] + rest)
    answer = write(words, ANY_ROOM)
    if answer.refusal:
        return b"", remark("packtrace", answer.refusal, answer.index)
    return answer.filled, ""


def list_trace(trace):
    """What `listtrace` writes and says."""
    answer = read(trace, ANY_ROOM)
    if answer.refusal:
        return page_of(trace).encode(), remark("listtrace", answer.refusal, answer.index)
    listing, first = listing_of(answer.filled)
    return listing.encode(), remark("listtrace", first[1], first[0], answer.filled) if first else ""


def read_list(text):
    """What `readlist` writes and says."""
    lines, bad, too_long = read_listing(text)
    said = "readlist: lines that cannot be read: %d\n" % bad if bad else ""
    return lines.encode(), "readlist: a line is longer than 4,095 bytes\n" if too_long else said


# What each program writes on standard output and says on standard error, by its name.
PROGRAMS = {"runtrace": run_trace, "unpacktrace": unpack_trace, "packtrace": pack_text, "listtrace": list_trace, "readlist": read_list}
