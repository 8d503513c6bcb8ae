"""Strikes and slips of outputs and their verdicts (docs/FORMATS.md, "Printed lines"; PROFILE.md, "Closed places")."""

from __future__ import annotations

from dataclasses import dataclass
from typing import List, Optional, Tuple

import isa
from admission import Test
from elf import read_elf
from machine import Change, ENDED, FIRED, GOING, WORD, Hart, Place, Slip, place_of, run_changed, start, writes_register
from pcg import random_words
from texts import hex16, number_or_none
from weave import Bounds, Woven, pair

MOST_REACH = 1000000
SNAPSHOT_STEPS = 4096
VERDICTS = ["fired", "ended", "same", "closed", "not reached"]
SLIP_VERDICTS = ["fired", "trapped", "ended", "going", "not reached"]


class InputTrapped(Exception):
    """The input traps within the bound, at this pc."""

    def __init__(self, pc: int) -> None:
        super().__init__(pc)
        self.pc = pc


@dataclass
class Verdict:
    """What a strike or a slip showed, with the steps behind it where the run stopped."""
    name: str
    steps: Optional[int] = None
    is_right: bool = False

    def text(self, results: bool) -> str:
        """VERDICT ("Printed lines")."""
        words = [self.name] + ([] if self.steps is None else [str(self.steps)])
        if results and self.name == ENDED:
            words.append("right" if self.is_right else "wrong")
        return " ".join(words)


@dataclass
class Aim:
    """Where an output is struck: one kind of places, both, or slips; the least step, and the step behind the greatest."""
    only: Optional[str] = None
    first: int = 0
    end: Optional[int] = None


def _is_use(i: Optional[isa.Instruction], register: int) -> bool:
    """Whether an instruction is a use of a register (PROFILE.md, "Closed places")."""
    if i is None:
        return False
    if i.group == "branch":
        return i.rs1 <= 13 and i.rs2 <= 13 and register in (i.rs1, i.rs2)
    return (i.group == "load" and i.rs1 == register or i.group == "store" and register in (i.rs1, i.rs2)
            or i.name == "addi" and i.rd == 30 and i.rs1 == register)


def _next(hart: Hart, ahead: int) -> Optional[isa.Instruction]:
    """The instruction so many bytes on, or None."""
    word = hart.next_word(ahead)
    return None if word is None else isa.decode(word)


def _is_checked(instruction: isa.Instruction, behind: Optional[isa.Instruction]) -> bool:
    """Whether a branch is checked by the one behind it, on the pairs."""
    return (behind is not None and instruction.group == behind.group == "branch"
            and behind.rs1 == pair(instruction.rs1) and behind.rs2 == pair(instruction.rs2))


def is_closed(hart: Hart, place: Place) -> bool:
    """Whether a place is closed in a state (PROFILE.md, "Closed places")."""
    if not isinstance(place, str) or not 1 <= int(place[1:]) <= 13:
        return False
    register = int(place[1:])
    following = _next(hart, 0)
    if following is None:
        return False
    if _is_use(following, register) and not _is_checked(following, _next(hart, 4)):
        return True
    ahead = 4 if following.name == "bne" else 8 if following.name == "beq" and following.imm == 8 else 0
    return (ahead > 0 and 1 <= following.rs1 <= 13 and following.rs1 != register and following.rs2 == following.rs1 + 16
            and _is_use(_next(hart, ahead), register))


def _data_word(hart: Hart, address: int) -> int:
    """The number in a data word; bytes that are not mapped are 0 (PROFILE.md, "Memory")."""
    whole = hart.memory.load(address, 8)
    return whole if whole is not None else sum((hart.memory.load(address + i, 1) or 0) << 8 * i for i in range(8))


class Course:
    """An output that is struck, beside its input."""

    def __init__(self, test: Test, woven: Woven, output: bytes) -> None:
        self.test = test
        self.bounds: Bounds = woven.bounds
        self.input = start(test.file)
        hart = start(read_elf(output))
        self.snapshots = [hart.copy()]
        while hart.outcome == GOING and hart.steps < MOST_REACH:
            hart.run(min(hart.steps + SNAPSHOT_STEPS, MOST_REACH))
            if hart.steps % SNAPSHOT_STEPS == 0:
                self.snapshots.append(hart.copy())
        self.reach = hart.steps

    def clean(self, steps: int) -> Hart:
        """The output after so many steps without changes."""
        hart = self.snapshots[min(steps // SNAPSHOT_STEPS, len(self.snapshots) - 1)].copy()
        hart.run(steps)
        return hart

    def input_trap(self, steps: int) -> Optional[int]:
        """Where the input's run of so many steps traps, or None."""
        self.input.run(steps)
        has_trapped = self.input.outcome not in (GOING, ENDED, FIRED) and self.input.steps <= steps
        return self.input.pc if has_trapped else None

    def strike(self, changes: List[Change]) -> Verdict:
        """The verdict of changes, which stand in the order of their steps ("Printed lines")."""
        last = changes[-1].step
        has_word = any(isinstance(change.place, int) for change in changes)
        bound = self.bounds.word if has_word else self.bounds.register
        states = [self.clean(change.step) for change in changes]
        if states[-1].outcome != GOING:
            return Verdict("not reached")
        if any(is_closed(state, change.place) for state, change in zip(states, changes)):
            return Verdict("closed")
        struck = states[0]
        run_changed(struck, changes, last + bound)
        if struck.outcome in (ENDED, FIRED):
            steps = max(struck.steps - last, 0)
            return Verdict(struck.outcome, steps, struck.outcome == ENDED and self.is_right(struck, last + steps))
        trap = self.input_trap(last + bound)
        if trap is not None:
            raise InputTrapped(trap)
        clean = self.clean(last + bound)
        is_steady = clean.outcome in (GOING, ENDED)  # else a jump by register has led to an address that is not reached
        if is_steady and all(self.is_held(change.place) for change in changes) and not struck.is_like(clean):
            raise AssertionError(f"the bound does not hold for {changes}")
        return Verdict("same")

    def is_right(self, struck: Hart, steps: int) -> bool:
        """Whether the input has ended after so many steps, with the values that the struck output has ("Printed lines")."""
        self.input.run(steps)
        if self.input.outcome != ENDED or self.input.steps > steps:
            return False
        words = (address for data in self.test.data for address in range(data.start, data.end, 8))
        return (self.input.x[1:14] == struck.x[1:14]
                and all(_data_word(self.input, word) == _data_word(struck, word) for word in words))

    def is_held(self, place: Place) -> bool:
        """Whether the bounds speak of changes of a place: x1 to x13 and data words (PROFILE.md, "Bounds")."""
        if isinstance(place, str):
            return 1 <= int(place[1:]) <= 13
        return any(data.start <= place < data.end for data in self.test.data)

    def slip(self, slip: Slip) -> Verdict:
        """The verdict of a slip ("Slips of a campaign")."""
        hart = self.clean(slip.step)
        if hart.outcome != GOING:
            return Verdict("not reached")
        i = _next(hart, 0)
        is_store = i is not None and i.group == "store"
        bound = self.bounds.word if is_store and self.bounds.word is not None else self.bounds.register
        hart.slip(slip)
        hart.run(slip.step + 1 + bound)
        if hart.outcome == GOING:
            return Verdict(GOING)
        name = hart.outcome.split()[0]
        return Verdict(name, hart.steps - slip.step - 1, name == ENDED and self.is_right(hart, hart.steps))

    def window(self, aim: Aim) -> int:
        """How many steps there are to draw from."""
        return max((self.reach if aim.end is None else aim.end) - aim.first, 1)

    def draw_slips(self, seed: int, count: int, aim: Aim) -> List[Slip]:
        """The slips of a seed ("Slips of a campaign")."""
        stream, slips = random_words(seed), []
        for _ in range(count):
            step = aim.first + next(stream) % self.window(aim)
            slips.append(Slip(step, *self.way(self.clean(step), next(stream), next(stream))))
        return slips

    def way(self, hart: Hart, word: int, value: int) -> Tuple[str, Optional[int]]:
        """How the instruction at the pc goes wrong, by two random words ("Slips of a campaign")."""
        i = _next(hart, 0)
        if i is not None and i.group == "store":
            ways = [("skip", None), ("store", value), ("place", self.other_place(place_of(hart, i), value))]
        elif i is not None and i.group == "branch":
            ways = [("skip", None), ("branch", None)]
        elif i is not None and writes_register(i):
            ways = [("skip", None), ("result", value)]
        else:
            ways = [("skip", None)]
        return ways[word % len(ways)]

    def other_place(self, right: int, value: int) -> int:
        """Another place of a store than this one: a data word, in the same half ("Slips of a campaign")."""
        number, count = value % max(self.test.data_words, 1), self.test.data_words
        word = self.test.data_word(number) if number < count else 0
        is_original = any(data.start <= right < data.end for data in self.test.data)
        return word + (0 if is_original else self.test.distance) & WORD

    def draw(self, seed: int, count: int, most: int, aim: Aim) -> List[List[Change]]:
        """The strikes of a seed ("Printed lines")."""
        stream = random_words(seed)
        registers = [] if aim.only == "words" else [f"x{number}" for number in range(1, 14)]
        places = len(registers) + (0 if aim.only == "registers" else self.test.data_words)
        window = self.window(aim)
        strikes = []
        for _ in range(count if places else 0):
            changes = []
            for _ in range(most):
                step = aim.first + next(stream) % window
                number = next(stream) % places
                place = (registers[number] if number < len(registers)
                         else self.test.data_word(number - len(registers)))
                changes.append(Change(step, place, next(stream)))
            strikes.append(sorted(changes, key=lambda change: change.step))
        return strikes


def strike_line(number: int, changes: List[Change], verdict: Verdict, results: bool) -> str:
    """The line of a strike ("Printed lines")."""
    places = [f"step {c.step} {c.place if isinstance(c.place, str) else hex16(c.place)}={hex16(c.value)}"
              for c in changes]
    return f"{number} {' '.join(places)} {verdict.text(results)}\n"


def _count(name: str, verdicts: List[Verdict], results: bool) -> str:
    """How often a verdict came, in the last line ("Printed lines")."""
    found = [verdict for verdict in verdicts if verdict.name == name]
    if name != ENDED or not results:
        return f"{name} {len(found)}"
    right = sum(verdict.is_right for verdict in found)
    return f"{name} {len(found)} ({right} right, {len(found) - right} wrong)"


def _last_line(kind: str, names: List[str], course: Course, verdicts: List[Verdict], results: bool) -> str:
    """The last line of strikes or slips ("Printed lines")."""
    counts = ", ".join(_count(name, verdicts, results) for name in names)
    longest = max((verdict.steps for verdict in verdicts if verdict.name == "fired"), default=0)
    return (f"{kind} {len(verdicts)}, {counts}, longest {longest}, "
            f"register bound {course.bounds.register}, word bound {number_or_none(course.bounds.word)}\n")


def strikes_text(course: Course, strikes: List[List[Change]], results: bool = False) -> Tuple[int, str]:
    """The exit code, and the lines of strikes with the last one ("Printed lines")."""
    lines, verdicts = [], []
    for number, changes in enumerate(strikes):
        try:
            verdicts.append(course.strike(changes))
        except InputTrapped as trapped:
            return 11, "".join(lines) + f"input trapped at {hex16(trapped.pc)}\n"
        lines.append(strike_line(number, changes, verdicts[-1], results))
    return 0, "".join(lines) + _last_line("strikes", VERDICTS, course, verdicts, results)


def slip_line(number: int, slip: Slip, verdict: Verdict, results: bool) -> str:
    """The line of a slip ("Printed lines")."""
    value = "" if slip.value is None else f"={hex16(slip.value)}"
    return f"{number} step {slip.step} {slip.way}{value} {verdict.text(results)}\n"


def slips_text(course: Course, slips: List[Slip], results: bool) -> str:
    """The lines of slips with the last one ("Printed lines")."""
    verdicts = [course.slip(slip) for slip in slips]
    lines = [slip_line(number, slip, verdict, results) for number, (slip, verdict) in enumerate(zip(slips, verdicts))]
    return "".join(lines) + _last_line("slips", SLIP_VERDICTS, course, verdicts, results)
