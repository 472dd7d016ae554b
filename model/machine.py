"""What an instruction reads and writes, and one cycle of the machine (document 01, the machine and one cycle)."""

from collections import namedtuple

import operations as op
from instructions import BY_NAME, WORD, decode, takes_operand

# What an instruction does: its operation, its sources, where the result goes, how much of Y is known, and who chooses CT.
Plan = namedtuple("Plan", "operation first second mask destination shown chooser")

# The state (document 01, state); waiting is a word or None.
Machine = namedtuple("Machine", "ram acc d status waiting")
ZERO_MACHINE = Machine((0,) * 32, 0, 0, 0, None)

# The answer to one cycle: a refusal (or 0), the machine after it, its four report words, and the instructions completed.
Step = namedtuple("Step", "refusal machine report completed")

IEN, SRE, DLE, OE_Y, OE_T = (1 << place for place in range(5))
PINS_ZERO = 0xF0E0
NO_CT, NOT_DRIVEN = 2, 16

# Document 01, Q0 to Q3: sources by the value of a field, in its order (R, S) or (U, R, mask).
TOR1_PAIRS = {0: ("RAM", "ACC"), 2: ("RAM", "I"), 3: ("D", "RAM")}
TOR1_DESTINATIONS = {0: "ACC", 8: "Y", 12: "RAM"}
OTHER_PAIRS = {1: ("D", "ACC"), 2: ("ACC", "I"), 5: ("D", "I")}
ROTC_SOURCES = {2: ("D", "ACC", "I"), 3: ("D", "RAM", "I"), 4: ("D", "RAM", "ACC"), 5: ("RAM", "ACC", "I")}
ROTM_SOURCES = {7: ("D", "ACC", "I"), 8: ("D", "ACC", "RAM"), 9: ("D", "RAM", "I"), 10: ("D", "RAM", "ACC"),
                12: ("ACC", "RAM", "I"), 14: ("RAM", "ACC", "I")}
SOR_WAYS = {0: ("RAM", "ACC"), 2: ("RAM", "Y"), 3: ("RAM", "STATUS"), 4: ("ACC", "RAM"), 6: ("D", "RAM"), 7: ("I", "RAM"),
            8: ("ZERO", "RAM"), 9: ("D0E", "RAM"), 10: ("DSE", "RAM"), 11: ("RAM", "RAM")}
ROTATE_WAYS = {("ROTR1", 12): ("RAM", "ACC"), ("ROTR1", 14): ("RAM", "Y"), ("ROTR1", 15): ("RAM", "RAM"),
               ("ROTR2", 0): ("ACC", "RAM"), ("ROTR2", 1): ("D", "RAM"), ("ROTNR", 24): ("D", "Y"), ("ROTNR", 25): ("D", "ACC"),
               ("ROTNR", 28): ("ACC", "Y"), ("ROTNR", 29): ("ACC", "ACC")}
BIT_OPERATIONS = {"BOR1": {13: "SETN", 14: "RSTN", 15: "TSTN"}, "BOR2": {12: "LD2N", 13: "LDC2N", 14: "A2N", 15: "S2N"},
                  "BONR": {0: "TSTN", 1: "RSTN", 2: "SETN", 4: "A2N", 5: "S2N", 6: "LD2N", 7: "LDC2N"}}
SONR_SOURCES = {4: "ACC", 6: "D", 7: "I", 8: "ZERO", 9: "D0E", 10: "DSE"}
PLAIN_DESTINATIONS = {0: "Y", 1: "ACC", 4: "STATUS", 5: "BOTH"}
PRIORITY_MASKS = {8: "ACC", 10: "ZERO", 11: "I"}
PRIORITY_SOURCES = {"PRT1": {7: "ACC", 9: "D"}, "PRT2": {0: "RAM", 2: "RAM"}, "PRT3": {3: "RAM", 4: "ACC", 6: "D"},
                    "PRTNR": {4: "ACC", 6: "D"}}
STATUS_BITS = {3: op.OVR | op.N | op.C | op.Z, 5: op.LINK, 6: op.FLAG1, 9: op.FLAG2, 10: op.FLAG3}


def plan_of(instruction):
    """What an accepted instruction does (document 01, the instruction list)."""
    family, _, a, b, c = instruction
    name_a, name_b = BY_NAME[family].a[a], BY_NAME[family].b[b]
    operation, first, second, mask, destination, shown, chooser = family, "ZERO", "ZERO", "ZERO", "Y", "WIDTH", "PINS"
    if family == "TOR1":
        first, second = TOR1_PAIRS[a & 3]
        operation, destination = name_b, TOR1_DESTINATIONS[a & 12]
    elif family in ("TOR2", "TONR"):
        first, second = OTHER_PAIRS[a]
        operation, destination = name_b, "RAM" if family == "TOR2" else PLAIN_DESTINATIONS[c]
    elif family == "SOR":
        operation, (first, destination) = name_a, SOR_WAYS[b]
    elif family == "SONR":
        operation, first, destination = name_a, SONR_SOURCES[b], PLAIN_DESTINATIONS[c]
    elif family in ("ROTR1", "ROTR2", "ROTNR"):
        operation, (first, destination) = "ROTATE", ROTATE_WAYS[family, c if family == "ROTNR" else b]
    elif family == "ROTC":
        operation, (first, second, mask) = "COMPARE", ROTC_SOURCES[b]
    elif family == "ROTM":
        operation, (first, second, mask) = "MERGE", ROTM_SOURCES[b]
        destination = second
    elif family in ("SHFTR", "SHFTNR"):
        operation, first = name_b, "D" if a == 7 else "RAM" if family == "SHFTR" else "ACC"
        destination = "RAM" if family == "SHFTR" else PLAIN_DESTINATIONS[c]
    elif family in ("BOR1", "BOR2"):
        operation, first = BIT_OPERATIONS[family][b], "RAM"
        destination = "Y" if operation == "TSTN" else "RAM"
    elif family == "BONR":
        operation, first = BIT_OPERATIONS[family][c & 7], "D" if c & 16 else "ACC"
        destination = "Y" if first == "D" or operation == "TSTN" else "ACC"
    elif family in ("CRCF", "CRCR"):
        first, second, destination = "RAM", "ACC", "RAM"
    elif family in PRIORITY_SOURCES:
        operation, shown, first = "PRIORITIZE", "WHOLE", PRIORITY_SOURCES[family][b]
        mask = "RAM" if family == "PRT1" else PRIORITY_MASKS[a]
        destination = {"PRT1": {8: "ACC", 10: "Y", 11: "RAM"}.get(a), "PRT2": {0: "ACC", 2: "Y"}.get(b), "PRT3": "RAM",
                       "PRTNR": PLAIN_DESTINATIONS.get(c)}[family]
    elif family in ("SVSTR", "SVSTNR"):
        operation, shown, destination = "SAVE", "WHOLE", "RAM" if family == "SVSTR" else PLAIN_DESTINATIONS[c]
    elif family in ("SETST", "RSTST"):
        shown = "WHOLE"
    else:
        shown, chooser = "NOTHING", "INSTRUCTION" if family == "TEST" else "PINS"
    return Plan(operation, first, second, mask, destination, shown, chooser)


def source_of(name, machine, register, operand):
    """A source's word (document 01, the instruction list; D(0E) and D(SE) extend D's low byte)."""
    low = machine.d & 0xFF
    return {"ZERO": 0, "RAM": machine.ram[register], "ACC": machine.acc, "D": machine.d, "I": operand,
            "D0E": low, "DSE": low | (0xFF00 if low & 0x80 else 0)}[name]


def outcome_of(plan, instruction, first, second, mask, status):
    """The result and the status that would follow (document 01, what the instructions do)."""
    width, name = 16 if instruction.mode == WORD else 8, plan.operation
    if name in ("MOVE", "COMP", "INC", "NEG"):
        return op.one_operand(name, first, width, status)
    if name in ("SETN", "RSTN", "TSTN", "LD2N", "LDC2N", "A2N", "S2N"):
        return op.bit_operation(name, instruction.a, first, width, status)
    if name.startswith("SHUP") or name.startswith("SHDN"):
        return op.shifted(name, first, width, status)
    if name == "ROTATE":
        return op.rotation(instruction.a, first, width, status)
    if name == "MERGE":
        return op.merged(instruction.a, first, second, mask, width, status)
    if name == "COMPARE":
        return op.compared(instruction.a, first, second, mask, width, status)
    if name == "PRIORITIZE":
        return op.prioritized(first, mask, width, status)
    if name in ("CRCF", "CRCR"):
        return op.crc_step(name, first, second, width, status)
    if name == "SAVE":
        return op.Outcome(status, status)
    if name == "SETST":
        return op.Outcome(0xFFFF, status | STATUS_BITS[instruction.c])
    if name == "RSTST":
        return op.Outcome(0x0000, status & ~STATUS_BITS[instruction.c])
    if name in ("TEST", "NOOP"):
        return op.Outcome(0, status)
    return op.two_operands(name, first, second, width, status)


def status_after(plan, instruction, outcome, old):
    """Status as destination takes Y's bits in place of flags (document 01, status as destination)."""
    if plan.destination in ("STATUS", "BOTH"):
        return outcome.result & 0xFF if instruction.mode == WORD else old & 0xF0 | outcome.result & 0x0F
    return outcome.status


def with_result(machine, plan, instruction, result):
    """RAM and ACC are written if named (document 01, IEN low)."""
    width = 16 if instruction.mode == WORD else 8
    if plan.destination in ("ACC", "BOTH"):
        return machine._replace(acc=op.written(machine.acc, result, width))
    if plan.destination == "RAM":
        ram = list(machine.ram)
        ram[instruction.c] = op.written(ram[instruction.c], result, width)
        return machine._replace(ram=tuple(ram))
    return machine


def known_mask(plan, instruction):
    """The mask of Y's known bits (document 01, report)."""
    return {"WIDTH": 0xFFFF if instruction.mode == WORD else 0x00FF, "WHOLE": 0xFFFF, "NOTHING": 0}[plan.shown]


def test_output(instruction, pins, status):
    """CT by the instruction, or by the T inputs (document 01, CT); it judges the status before the cycle."""
    if instruction is not None and instruction.family == "TEST" and not pins & IEN:
        return op.condition(instruction.c >> 1, status)
    code = pins >> 8 & 15
    return NO_CT if pins & OE_T or code > 11 else op.condition(code, status)


def report_of(y, mask, test, pins, status):
    """The four words of a report (document 01, report; T output)."""
    mask = 0 if pins & OE_Y else mask
    return y & mask, mask, test, status & 15 if pins & OE_T else NOT_DRIVEN


def may_wait(word):
    """Whether a word may wait: an accepted one with an I operand (document 01, refusal 4)."""
    refusal, instruction = decode(word)
    return not refusal and takes_operand(instruction)


def completed(machine, instruction, operand, pins):
    """A cycle that completes an instruction (document 01, the machine and one cycle)."""
    plan, old = plan_of(instruction), machine.status
    sources = (source_of(name, machine, instruction.c, operand) for name in (plan.first, plan.second, plan.mask))
    outcome = outcome_of(plan, instruction, *sources, old)
    after = machine._replace(waiting=None)
    if not pins & IEN:
        after = with_result(after, plan, instruction, outcome.result)
        if not pins & SRE:
            after = after._replace(status=status_after(plan, instruction, outcome, old))
    chooser = instruction if plan.chooser == "INSTRUCTION" else None
    report = report_of(outcome.result, known_mask(plan, instruction), test_output(chooser, pins, old), pins, after.status)
    return Step(0, after, report, 1)


def cycle(machine, lines, y_input, pins):
    """One cycle: refusals 4 to 10 in their order, then what it does (document 01, one cycle and refusal numbers)."""
    def refused(number):
        return Step(number, machine, None, 0)

    if machine.waiting is not None and not may_wait(machine.waiting):
        return refused(4)
    if pins & PINS_ZERO:
        return refused(5)
    if pins & DLE and not pins & OE_Y:
        return refused(6)
    latched = machine._replace(d=y_input) if pins & DLE else machine
    if machine.waiting is not None:
        return completed(latched, decode(machine.waiting)[1], lines, pins)
    refusal, instruction = decode(lines)
    if refusal:
        return refused(refusal)
    if not takes_operand(instruction):
        return completed(latched, instruction, None, pins)
    if pins & IEN:
        return refused(10)
    report = report_of(0, 0, test_output(None, pins, machine.status), pins, machine.status)
    return Step(0, latched._replace(waiting=lines), report, 0)
