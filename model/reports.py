"""What the test programs print: their forms are theirs (the comments of each program), what they show is the model's."""

from collections import Counter
from itertools import product

import operations as op
from blocks import check_by_steps, read, words_of, write
from instructions import FAMILIES, PAIR, SHIFT, SINGLE, data_of, decode, encode, line_of, takes_operand, word_of
from machine import Machine, cycle, plan_of
from runs import run
from text import digit_or_dash, page_of, state_line

CORNERS = [0x0000, 0x0001, 0x007F, 0x0080, 0x00FF, 0x0100, 0x7FFF, 0x8000, 0xFF00, 0xFFFF]
TWO_STATUSES, FOUR_STATUSES = [0x59, 0xA6], [0x00, 0xFF, 0xA6, 0x59]
BIT_NAMES = ["SETN", "RSTN", "TSTN", "LD2N", "LDC2N", "A2N", "S2N"]
RAM = tuple([0x0000, 0x0001, 0x00FF, 0x0100, 0x137F, 0x3156, 0x1280, 0x7FFF, 0x8000, 0xAAAA, 0x15F0, 0xFF00, 0xFFFF, 0x0080, 0x1021,
             0x8408] + [number << 12 | 0x00C3 for number in range(16)])


def places(limit):
    """Values of n with their texts."""
    return [(str(n), n) for n in range(limit)]


def alu_trials(width):
    """What is tried in one mode: a name, statuses, the operands but the last, and a function with its first argument if it has one."""
    words = [("%04X" % word, word) for word in CORNERS]
    trials = [(name, TWO_STATUSES, [words], op.two_operands, [name]) for name in PAIR.values()]
    trials += [(name, TWO_STATUSES, [], op.one_operand, [name]) for name in SINGLE.values()]
    trials += [(name, TWO_STATUSES, [places(width)], op.bit_operation, [name]) for name in BIT_NAMES]
    trials += [(name, FOUR_STATUSES, [], op.shifted, [name]) for name in SHIFT.values()]
    trials += [("ROT", TWO_STATUSES, [places(16)], op.rotation, [])]
    trials += [(name, [status], [places(16)[n:n + 1], words, words], function, [])
               for name, function in (("ROTM", op.merged), ("ROTC", op.compared)) for n, status in ((4, 0xA6), (9, 0x59))]
    trials += [("PRT", TWO_STATUSES, [words], op.prioritized, [])]
    return trials + [(name, FOUR_STATUSES, [words], op.crc_step, [name]) for name in ("CRCF", "CRCR") if width == 16]


def alu_lines_of(mode, width):
    """The lines of one mode: each has an outcome for each value of the last operand."""
    for name, statuses, ranges, function, first in alu_trials(width):
        for status, *operands in product(statuses, *ranges):
            values = first + [value for _, value in operands]
            shown = " ".join("%04X/%02X" % function(*values, last, width, status) for last in CORNERS)
            yield "%s %s %02X%s: %s\n" % (mode, name, status, "".join(" " + text for text, _ in operands), shown)
    for old in CORNERS:
        yield "%s PUT %04X: %s\n" % (mode, old, " ".join("%04X" % op.written(old, result, width) for result in CORNERS))


def alu_cases():
    """Every operation at both widths."""
    return "".join(alu_lines_of("B", 8)) + "".join(alu_lines_of("W", 16))


def every_word():
    """How many words are accepted, refused, with an I operand, of each family, and come back."""
    answers = [decode(word) for word in range(65536)]
    accepted = [instruction for refusal, instruction in answers if not refusal]
    refused = Counter(refusal for refusal, _ in answers)
    families = Counter(instruction.family for instruction in accepted)
    back = sum(1 for word, (refusal, instruction) in enumerate(answers) if not refusal and encode(instruction) == (0, word))
    lines = ["accepted %d" % len(accepted)] + ["refused %d %d" % (number, refused[number]) for number in (7, 8, 9)]
    lines.append("immediate %d" % sum(map(takes_operand, accepted)))
    lines += ["%s %d" % (family.name, families[family.name]) for family in FAMILIES]
    return "\n".join(lines + ["back %d" % back]) + "\n"


def every_plan():
    """How many plans of accepted words have each operation, source, destination, showing and chooser."""
    plans = [plan_of(instruction) for refusal, instruction in map(decode, range(65536)) if not refusal]
    operations = (list(PAIR.values()) + list(SINGLE.values()) + BIT_NAMES + list(SHIFT.values())
                  + "ROTATE MERGE COMPARE PRIORITIZE CRCF CRCR SAVE SETST RSTST TEST NOOP".split())
    sources = "ZERO RAM ACC D I D0E DSE".split()
    kinds = [("operation", operations), ("first", sources), ("second", sources), ("mask", sources),
             ("destination", "Y ACC RAM STATUS BOTH".split()), ("shown", "WIDTH WHOLE NOTHING".split()),
             ("chooser", ["PINS", "INSTRUCTION"])]
    lines = []
    for kind, names in kinds:
        counts = Counter(getattr(plan, kind) for plan in plans)
        lines += ["%s %s %d" % (kind, name, counts[name]) for name in names]
    immediate = [plan for plan in plans if "I" in (plan.first, plan.second, plan.mask)]
    lines.append("immediate %d" % len(immediate))
    lines.append("ram %d" % (sum(plan.destination == "RAM" for plan in plans) - sum(plan.destination == "RAM" for plan in immediate)))
    return "\n".join(lines) + "\n"


def spaced(line):
    """A line with each blank twice and one at both ends."""
    return b" " + line.replace(b" ", b"  ") + b" "


def in_other_mode(line):
    """A line with the other mode letter."""
    family, letter, *rest = line.split(b" ")
    return b" ".join([family, b"W" if letter == b"B" else b"B"] + rest)


def every_line(singles, data_singles):
    """What the lines of all words give as they are, with more blanks and in the other mode; then some single lines."""
    answers = [line_of(word) for word in range(65536)]
    refused = Counter(refusal for refusal, _ in answers)
    lines = {word: line.encode() for word, (refusal, line) in enumerate(answers) if not refusal}
    back = sum(word_of(line) == (word, 0, 0) for word, line in lines.items())
    blanks = sum(word_of(spaced(line)) == (word, 0, 0) for word, line in lines.items())
    others = [(word ^ 0x8000, word_of(in_other_mode(line))) for word, line in lines.items()]
    turned = sum(answer == (meant, 0, 0) for meant, answer in others)
    line_refused = Counter(answer[1] for _, answer in others if answer[1])
    astray = len(others) - turned - line_refused[7] - line_refused[9]
    twice = [word_of(lines[word | 1 << 10].replace(b" PRZ ", b" PRA ")) for word, (refusal, _) in enumerate(answers) if refusal == 8]
    columns = sum(answer[2] != 0 for answer in twice + [answer for _, answer in others])
    data = sum(data_of(b"%04X" % word) == (word, 0, 0) for word in range(65536))
    counts = [("printed", len(lines))] + [("word refused %d" % number, refused[number]) for number in (7, 8, 9)]
    counts += [("back", back), ("spaced back", blanks), ("line refused 7", line_refused[7]), ("line refused 9", line_refused[9]),
               ("turned", turned), ("astray", astray), ("line refused 8", sum(answer[1] == 8 for answer in twice)),
               ("columns", columns), ("data back", data)]
    texts = ["%s %d" % count for count in counts]
    texts += ["'%s' %s" % (line, answer_text(word_of(line.encode()))) for line in singles]
    texts += ["data '%s' %s" % (line, answer_text(data_of(line.encode()))) for line in data_singles]
    return "\n".join(texts) + "\n"


def answer_text(answer):
    """A word, or a refusal and its column."""
    word, refusal, column = answer
    return "%d %d" % (refusal, column) if refusal else "%04X" % word


def changed_registers(machine):
    """The registers that are not what they were at the start."""
    return ["r%02d %04X" % (number, word) for number, word in enumerate(machine.ram) if word != RAM[number]]


def start_of(waiting, acc, d, status):
    """A start state of the tests; the word 0000 stands for none waiting."""
    return Machine(RAM, acc, d, status, waiting or None)


def cycle_cases(text):
    """A line for each single cycle: what it shows, what it completes and the state after it."""
    lines = []
    for line in text.decode().splitlines():
        waiting, acc, d, status, *words = (int(item, 16) for item in line.split())
        step = cycle(start_of(waiting, acc, d, status), *words)
        if step.refusal:
            lines.append("%s > refused %d\n" % (line, step.refusal))
            continue
        y, mask, test, t = step.report
        shown = "%04X %04X %s %s %d" % (y, mask, digit_or_dash(test, 2), digit_or_dash(t, 16), step.completed)
        registers = " ".join(changed_registers(step.machine)) or "-"
        lines.append("%s > %s %s %s\n" % (line, shown, state_line(step.machine), registers))
    return "".join(lines)


def run_case(number, header, pattern):
    """The lines of one run: its first six reports and its last, their sum, the state, the answer and what is untouched."""
    waiting, acc, d, status, budget, room, length, _ = (int(item, 16) for item in header)
    words = [pattern[place % len(pattern)] for place in range(length)]
    result = run(start_of(waiting, acc, d, status), words, budget, room)
    shown = ["%04X %04X %04X %04X" % report for report in result.reports]
    lines = ["case %d" % number] + shown[:6] + (["...", shown[-1]] if len(shown) > 6 else [])
    total = 0
    for report in result.reports:
        for word in report:
            total = (31 * total + word) & 0xFFFF
    lines += ["sum %04X" % total, state_line(result.machine)] + changed_registers(result.machine)
    ending = "refused %d at %d" % (result.refusal, result.index) if result.refusal else result.ending
    lines.append("%s accepted %d completed %d" % (ending, result.accepted, result.completed))
    return "\n".join(lines + ["untouched from %d" % (4 * result.accepted)]) + "\n"


def run_cases(text):
    """All runs of a text: a header line and its pattern lines for each."""
    lines, place, number, shown = text.decode().splitlines(), 0, 0, []
    while place < len(lines):
        header = lines[place].split()
        count, number = int(header[7], 16), number + 1
        pattern = [int(item, 16) for line in lines[place + 1:place + 1 + count] for item in line.split()]
        shown.append(run_case(number, header, pattern))
        place += 1 + count
    return "".join(shown)


def filled_lines(units, form):
    """What a call filled: its beginning, its end and two sums."""
    first = sum(units) & 0xFFFF
    second = sum(place * unit for place, unit in enumerate(units, 1)) & 0xFFFF
    begins, ends = (" ".join([name] + [form % unit for unit in part]) for name, part in (("begins", units[:8]), ("ends", units[-8:])))
    return ["accepted %d" % len(units), begins, ends, "sum %04X %04X" % (first, second)]


def cases_in(stdin, header_length, fields):
    """The cases of a binary input: what a header says, and the payload with its zeros after it."""
    place = 0
    while place < len(stdin):
        header = stdin[place:place + header_length].decode().split()
        length, zeros = (int(header[name]) for name in fields)
        payload = stdin[place + header_length:place + header_length + length]
        yield header, payload + bytes(zeros)
        place += header_length + length


def block_counts(stdin):
    """The answers of the check, the writer and the reader."""
    lines, number = [], 0
    for number, ((kind, _, _, room), data) in enumerate(cases_in(stdin, 23, (1, 2)), 1):
        lines.append("%d %s %d%s" % (number, kind, len(data), "" if kind == "C" else " room %d" % int(room)))
        if kind == "C":
            lines.append("check %04X" % check_by_steps(data))
            continue
        answer = write(words_of(data), int(room)) if kind == "W" else read(data, int(room))
        if answer.refusal:
            lines.append("refused %d at %d" % (answer.refusal, answer.index))
        else:
            lines += filled_lines(list(answer.filled), "%02X" if kind == "W" else "%04X")
        lines.append("untouched yes")
    return "\n".join(lines + ["cases %d" % number]) + "\n"


def page_cases(stdin):
    """The page of each trace."""
    return "".join("case %d\n%s" % (number, page_of(trace)) for number, (_, trace) in enumerate(cases_in(stdin, 14, (0, 1)), 1))
