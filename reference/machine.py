"""Memory, harts, steps, and runs with changes (docs/FORMATS.md, "A file in memory" and "Values")."""

from __future__ import annotations

from bisect import bisect_right
from dataclasses import dataclass
from functools import lru_cache
from itertools import accumulate
from typing import Callable, Dict, Iterable, List, Optional, Set, Tuple, Union

import isa
from elf import File, PF_R, PF_W, PF_X, Segment

WORD = (1 << 64) - 1
GOING, ENDED, FIRED = "going", "ended", "fired"


def loads_of(file: File) -> List[Segment]:
    """The PT_LOAD segments with bytes in memory, by their addresses ("A file in memory")."""
    return sorted((s for s in file.segments if s.is_load and s.memsz > 0), key=lambda s: s.vaddr)


class Ranges:
    """Ranges of addresses, each with its start and its end, which are asked about others."""

    def __init__(self, ranges: Iterable[Tuple[int, int]]) -> None:
        self.ranges = list(ranges)
        self.starts = sorted(start for start, _ in self.ranges)
        self.reach = list(accumulate((end for _, end in sorted(self.ranges)), max))

    def _reach(self, address: int) -> int:
        """The greatest end of those that start at an address or below it; 0 where none does."""
        index = bisect_right(self.starts, address)
        return self.reach[index - 1] if index else 0

    def hold(self, start: int, end: int) -> bool:
        """Whether one of them has all of a range."""
        return self._reach(start) >= end

    def share(self, start: int, end: int) -> bool:
        """Whether one of them has an address of a range."""
        return start < end and self._reach(end - 1) > start

    def words(self) -> List[range]:
        """The multiples of 4 in them, ascending, as ranges."""
        found, last = [], 0
        for start, reach in zip(self.starts, self.reach):
            found.append(range(max(-(-start // 4) * 4, last), reach, 4))
            last = max(last, -(-reach // 4) * 4)
        return found


def executed(file: File) -> Ranges:
    """The PT_LOAD segments with PF_X and bytes in memory."""
    return Ranges((s.vaddr, s.end) for s in file.segments if s.is_load and s.flags & PF_X and s.memsz > 0)


def code_ranges(file: File) -> Ranges:
    """The code ranges ("A file in memory")."""
    segments = executed(file)
    found = [(s.addr, s.addr + s.size) for s in file.sections
             if s.is_executable and s.size > 0 and segments.hold(s.addr, s.addr + s.size)]
    return Ranges(found) if found else segments


class Memory:
    """The bytes of files with their permissions ("A file in memory").

    Zeros at the end of a segment are kept only from the first store there on. Copies share bytes until one is written.
    """

    def __init__(self, segments: List[Segment]) -> None:
        parts = sorted(segments, key=lambda s: s.vaddr)
        self.starts = [s.vaddr for s in parts]
        self.sizes = [s.memsz for s in parts]
        self.flags = [s.flags for s in parts]
        self.data = [bytearray(s.data) for s in parts]
        self.is_shared = [False] * len(parts)
        self.version = 0  # how often executable bytes were stored

    def copy(self) -> Memory:
        """The same bytes, for a state of its own."""
        other = Memory([])
        other.starts, other.sizes, other.flags = self.starts, self.sizes, self.flags
        other.data, other.version = list(self.data), self.version
        self.is_shared = [True] * len(self.data)
        other.is_shared = [True] * len(self.data)
        return other

    def file_end(self, address: int) -> int:
        """Where the bytes in the file of the segment at an address end."""
        index = bisect_right(self.starts, address) - 1
        return self.starts[index] + len(self.data[index])

    def load(self, address: int, size: int, permission: int = 0) -> Optional[int]:
        """The number that stands there, or None where a byte is not mapped or lacks the permission."""
        index = bisect_right(self.starts, address) - 1
        if index < 0 or address - self.starts[index] >= self.sizes[index]:
            return None
        offset = address - self.starts[index]
        if offset + size <= self.sizes[index]:
            if self.flags[index] & permission != permission:
                return None
            return int.from_bytes(self.data[index][offset:offset + size], "little")
        parts = [self.load(address + i & WORD, 1, permission) for i in range(size)]
        return None if None in parts else int.from_bytes(bytes(parts), "little")

    def store(self, address: int, size: int, number: int, permission: int = 0) -> bool:
        """Stores a number, or gives False where a byte is not mapped or lacks the permission."""
        if self.load(address, size, permission) is None:
            return False
        index = bisect_right(self.starts, address) - 1
        offset = address - self.starts[index]
        if offset + size > self.sizes[index]:
            for i in range(size):
                self.store(address + i & WORD, 1, number >> 8 * i & 0xFF)
            return True
        if self.is_shared[index]:
            self.data[index] = bytearray(self.data[index])
            self.is_shared[index] = False
        data = self.data[index]
        if len(data) < offset + size:
            data.extend(bytes(offset + size - len(data)))
        data[offset:offset + size] = number.to_bytes(size, "little")
        if self.flags[index] & PF_X:
            self.version += 1
        return True

    def is_like(self, other: Memory) -> bool:
        """Whether another memory of the same segments has the same bytes."""
        for ours, theirs in zip(self.data, other.data):
            common = min(len(ours), len(theirs))
            if ours is not theirs and (ours[:common] != theirs[:common] or any(ours[common:]) or any(theirs[common:])):
                return False
        return True


class Stop(Exception):
    """A step stops the run, with this outcome."""


# A register by its name, as "x5", or the address of a word.
Place = Union[int, str]


@dataclass(frozen=True)
class Change:
    """A register or a word gets a value after so many steps ("A file in memory")."""
    step: int
    place: Place
    value: int


@dataclass(frozen=True)
class Slip:
    """The instruction behind so many steps goes wrong once: `skip`, `branch`, `result`, `store` or `place` with a number."""
    step: int
    way: str
    value: Optional[int] = None


class Hart:
    """A hart in a memory: its pc, registers, count of steps and outcome ("A file in memory")."""

    def __init__(self, memory: Memory, code: Ranges, pc: int) -> None:
        self.memory, self.code, self.pc = memory, code, pc
        self.x = [0] * 32
        self.steps = 0
        self.outcome = GOING
        # What a step does at the addresses where one was made, for as long as no executable byte changes.
        self.actions: Dict[int, Action] = {}
        self.version = memory.version

    def copy(self) -> Hart:
        """The same state, with a memory of its own."""
        other = Hart(self.memory.copy(), self.code, self.pc)
        other.x, other.steps, other.outcome = list(self.x), self.steps, self.outcome
        other.actions, other.version = self.actions, self.version
        return other

    def is_like(self, other: Hart) -> bool:
        """Whether the states are the same, whatever the steps."""
        return (self.pc == other.pc and self.x == other.x and self.outcome == other.outcome
                and self.memory.is_like(other.memory))

    def next_word(self, ahead: int = 0) -> Optional[int]:
        """The word at the pc or so many bytes on, or None where none can be fetched ("A file in memory")."""
        address = self.pc + ahead & WORD
        if address % 4 != 0 or not self.code.hold(address, address + 4):
            return None
        return self.memory.load(address, 4, PF_X)

    def step(self) -> None:
        """Makes a step ("A file in memory")."""
        self.steps += 1
        if self.version != self.memory.version:
            self.actions, self.version = {}, self.memory.version
        action = self.actions.get(self.pc)
        if action is None:
            word = self.next_word()
            action = stopping("trapped fetch") if word is None else action_of(word)
            self.actions[self.pc] = action
        try:
            action(self)
        except Stop as stop:
            self.outcome = str(stop)

    def slip(self, slip: Slip) -> bool:
        """Makes a step in which the instruction goes wrong, and says whether it has this slip ("A file in memory")."""
        word = self.next_word()
        action = None if word is None else slipped(word, slip)
        if action is None:
            self.step()
            return False
        self.steps += 1
        try:
            action(self)
        except Stop as stop:
            self.outcome = str(stop)
        return True

    def run(self, most: int) -> None:
        """Makes steps until it stops or has made so many in all."""
        while self.steps < most and self.outcome == GOING:
            self.step()

    def change(self, change: Change) -> None:
        """Makes a change ("A file in memory")."""
        if isinstance(change.place, str):
            self.x[int(change.place[1:])] = change.value
        else:
            for number, byte in enumerate(change.value.to_bytes(8, "little")):
                self.memory.store(change.place + number, 1, byte)


class Watched(Hart):
    """A hart that keeps its first jump by register to an address that is not among some, as where from and where to."""

    def __init__(self, memory: Memory, code: Ranges, pc: int, reached: Set[int]) -> None:
        super().__init__(memory, code, pc)
        self.reached = reached
        self.astray: Optional[Tuple[int, int]] = None

    def step(self) -> None:
        """Makes a step; a jump that traps leads nowhere."""
        at, word = self.pc, self.next_word()
        super().step()
        i = None if word is None else isa.decode(word)
        if i is not None and i.group == "jalr" and self.outcome == GOING and self.pc not in self.reached:
            self.astray = self.astray or (at, self.pc)


def start(file: File) -> Hart:
    """The hart of a file, with all registers 0 ("A file in memory")."""
    return Hart(Memory(loads_of(file)), code_ranges(file), file.entry)


def start_watched(file: File, reached: Set[int]) -> Watched:
    """The same, watched."""
    return Watched(Memory(loads_of(file)), code_ranges(file), file.entry, reached)


def run_changed(hart: Hart, changes: List[Change], most: int) -> None:
    """A run of so many steps with changes, which stand in the order of their steps ("A file in memory")."""
    for change in changes:
        hart.run(min(change.step, most))
        if hart.outcome == GOING and hart.steps == change.step:
            hart.change(change)
    hart.run(most)


def run_slipped(hart: Hart, changes: List[Change], slip: Slip, most: int) -> Optional[Tuple[int, bool]]:
    """The same with a slip: the pc of its step, and whether the instruction has it; None if the step is not reached."""
    run_changed(hart, [change for change in changes if change.step <= slip.step], min(slip.step, most))
    found = None
    if hart.outcome == GOING and hart.steps < most:
        found = hart.pc, hart.slip(slip)
    run_changed(hart, [change for change in changes if change.step > slip.step], most)
    return found


# Steps

Action = Callable[[Hart], None]


def stopping(outcome: str) -> Action:
    """A step that stops the run, as those of ECALL and of EBREAK ("Values")."""
    def act(hart: Hart) -> None:
        raise Stop(outcome)
    return act


def _setting(rd: int, value: Callable[[Hart], int]) -> Action:
    """A step that sets rd, and goes on."""
    def act(hart: Hart) -> None:
        hart.x[rd] = value(hart) & WORD
        hart.x[0] = 0
        hart.pc = hart.pc + 4 & WORD
    return act


def _upper(i: isa.Instruction) -> Action:
    """The step of LUI and AUIPC ("Values")."""
    return _setting(i.rd, lambda hart: (hart.pc if i.name == "auipc" else 0) + i.imm)


def _immediate(i: isa.Instruction) -> Action:
    """The step of a kind that computes with an immediate ("Values")."""
    value, rs1, imm = isa.VALUES[i.name], i.rs1, i.imm & WORD
    return _setting(i.rd, lambda hart: value(hart.x[rs1], imm))


def _register(i: isa.Instruction) -> Action:
    """The step of a kind that computes with two registers ("Values")."""
    value, rs1, rs2 = isa.VALUES[i.name], i.rs1, i.rs2
    return _setting(i.rd, lambda hart: value(hart.x[rs1], hart.x[rs2]))


def _load(i: isa.Instruction) -> Action:
    """The step of a load ("Values")."""
    size, rs1, imm = isa.ACCESS_SIZES[i.name], i.rs1, i.imm

    def value(hart: Hart) -> int:
        address = hart.x[rs1] + imm & WORD
        number = hart.memory.load(address, size, PF_R)
        if number is None:
            raise Stop(f"trapped load 0x{address:016x}")
        return number if i.name.endswith("u") else isa.signed(number, 8 * size)
    return _setting(i.rd, value)


def place_of(hart: Hart, i: isa.Instruction) -> int:
    """The address of a store ("Values")."""
    return hart.x[i.rs1] + i.imm & WORD


def _store(i: isa.Instruction, value: Optional[int] = None, place: Optional[int] = None) -> Action:
    """The step of a store ("Values"), which may slip to another value or place."""
    size = isa.ACCESS_SIZES[i.name]
    low = (1 << 8 * size) - 1

    def act(hart: Hart) -> None:
        address = place_of(hart, i) if place is None else place
        if not hart.memory.store(address, size, (hart.x[i.rs2] if value is None else value) & low, PF_W):
            raise Stop(f"trapped store 0x{address:016x}")
        hart.pc = hart.pc + 4 & WORD
    return act


def _target(address: int) -> int:
    """The target of a jump or a taken branch, which traps where it is no multiple of 4 ("A file in memory")."""
    if address % 4 != 0:
        raise Stop(f"trapped target 0x{address & WORD:016x}")
    return address & WORD


def _jump(i: isa.Instruction) -> Action:
    """The step of JAL and JALR ("Values")."""
    def act(hart: Hart) -> None:
        link = hart.pc + 4 & WORD
        hart.pc = _target(hart.pc + i.imm if i.name == "jal" else hart.x[i.rs1] + i.imm & ~1)
        hart.x[i.rd] = link
        hart.x[0] = 0
    return act


def _branch(i: isa.Instruction, is_right: bool = True) -> Action:
    """The step of a branch ("Values"), which may slip the other way."""
    taken, rs1, rs2 = isa.TAKEN[i.name], i.rs1, i.rs2

    def act(hart: Hart) -> None:
        is_taken = taken(hart.x[rs1], hart.x[rs2]) == is_right
        hart.pc = _target(hart.pc + i.imm) if is_taken else hart.pc + 4 & WORD
    return act


def _fence(i: isa.Instruction) -> Action:
    """The step of a FENCE ("Values")."""
    return _setting(0, lambda hart: 0)


ACTIONS: Dict[str, Callable[[isa.Instruction], Action]] = {
    "upper": _upper, "immediate": _immediate, "register": _register, "jal": _jump, "jalr": _jump, "branch": _branch,
    "load": _load, "store": _store, "fence": _fence, "ecall": lambda i: stopping(ENDED),
    "ebreak": lambda i: stopping(FIRED)}


@lru_cache(maxsize=1 << 16)
def action_of(word: int) -> Action:
    """What a step at a word does ("Values", "A file in memory")."""
    i = isa.decode(word)
    if i is None or i == isa.ZERO:
        return stopping(f"trapped word 0x{word:08x}")
    return ACTIONS[i.group](i)


def writes_register(i: isa.Instruction) -> bool:
    """Whether an instruction writes a register other than x0."""
    return any(isa.writes(i))


def slipped(word: int, slip: Slip) -> Optional[Action]:
    """What a step at a word does that goes wrong so, or None where the word has no such slip ("A file in memory")."""
    i = isa.decode(word)
    if i is None:
        return None
    if slip.way == "skip":
        return _setting(0, lambda hart: 0)
    if slip.way == "branch":
        return _branch(i, False) if i.group == "branch" else None
    if slip.way == "result":
        return _resulting(i, action_of(word), slip.value) if writes_register(i) else None
    if i.group != "store":
        return None
    return _store(i, value=slip.value) if slip.way == "store" else _store(i, place=slip.value)


def _resulting(i: isa.Instruction, right: Action, value: int) -> Action:
    """A step that gives rd another number, if it does not trap."""
    def act(hart: Hart) -> None:
        right(hart)
        hart.x[i.rd] = value
    return act
