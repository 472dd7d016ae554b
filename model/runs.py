"""Runs (document 01, runs, blocks and refusal numbers)."""

from collections import namedtuple

from machine import ZERO_MACHINE, cycle, may_wait

MOST_CYCLES = 4096

# How a run ends: done, stopped or refused; the refusal and its index (0 and 0 else); the counts, the state and the reports.
Run = namedtuple("Run", "ending refusal index accepted completed machine reports")


def refusal_before(machine, words, room):
    """1 to 4, or 0: what is checked before the first cycle, whatever the budget (document 01, a run checks 1, 2, 3, 4)."""
    if len(words) % 3:
        return 1
    if len(words) // 3 > MOST_CYCLES:
        return 2
    if room < len(words) // 3 * 4:
        return 3
    if machine.waiting is not None and not may_wait(machine.waiting):
        return 4
    return 0


def run(machine, words, budget, room):
    """A run over cycle words with a budget of cycles and a room of report words (document 01, runs)."""
    refusal = refusal_before(machine, words, room)
    if refusal:
        return Run("refused", refusal, 0, 0, 0, machine, [])
    reports, instructions = [], 0
    for index in range(len(words) // 3):
        if index >= budget:
            return Run("stopped", 0, 0, index, instructions, machine, reports)
        step = cycle(machine, *words[3 * index:3 * index + 3])
        if step.refusal:
            return Run("refused", step.refusal, index, index, instructions, machine, reports)
        machine = step.machine
        instructions += step.completed
        reports.append(step.report)
    return Run("done", 0, 0, len(words) // 3, instructions, machine, reports)


def run_from_zero(words):
    """The run of `runtrace`: from all zero, with budget 4,096 (document 01, examples)."""
    return run(ZERO_MACHINE, words, MOST_CYCLES, 4 * MOST_CYCLES)
