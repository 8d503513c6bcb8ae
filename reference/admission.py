"""Which files are tests, and what is told of them (docs/PROFILE.md, "Memory", "Blocks and pieces", "Reached addresses"
and "Admission")."""

from __future__ import annotations

from dataclasses import dataclass, field
from typing import Dict, List, Optional, Set

import isa
from elf import File, PF_W, PF_X, PT_DYNAMIC, PT_INTERP, STT_FUNC, STT_NOTYPE, Segment
from machine import Memory, Ranges, WORD, code_ranges, executed
from texts import Exceeded, Refused, hex16

MOST_DISTANCE = 64 << 20
MOST_CODE_WORDS = 1 << 20
MOST_NEW_CODE = 64 << 20
FARTHEST_CONSTANT = 1 << 28
RELOCATIONS_OF_LEADERS = {1, 2, 16, 17, 18, 19, 23, 26, 27, 28}


@dataclass
class Options:
    """The options of `transform` and `plan` (PROFILE.md, "Options")."""
    inst_min: int = 4
    inst_max: int = 16
    round: int = 1
    half: Optional[int] = None
    sweep: bool = False
    diverse: bool = False
    entries: str = "all"
    lean: Optional[int] = None
    land: bool = False


@dataclass
class DataRange:
    """A data range with the data segments that it joins (PROFILE.md, "Memory")."""
    start: int
    end: int
    segments: List[Segment] = field(default_factory=list)

    @property
    def is_written(self) -> bool:
        """Whether one of its segments is written."""
        return any(s.flags & PF_W for s in self.segments)


@dataclass
class Test:
    """An admitted test (PROFILE.md, "Memory" and "Blocks and pieces")."""
    file: File
    image: List[Segment]
    base: int
    end: int
    distance: int
    ranges: Ranges
    code: Dict[int, isa.Instruction]
    data: List[DataRange]

    @property
    def new_code(self) -> int:
        """C, where the new code begins ("Memory")."""
        return self.base + 3 * self.distance

    @property
    def data_words(self) -> int:
        """W, how many data words there are ("Memory")."""
        return sum(r.end - r.start for r in self.data) // 8

    @property
    def has_indirect(self) -> bool:
        """Whether the code has a JALR ("Blocks and pieces")."""
        return any(i.name == "jalr" for i in self.code.values())

    def data_word(self, number: int) -> int:
        """The address of a data word by its number, ascending (FORMATS.md, "Printed lines", campaign)."""
        for data in self.data:
            if number < (data.end - data.start) // 8:
                return data.start + 8 * number
            number -= (data.end - data.start) // 8
        raise IndexError(number)


def round_up(number: int, grain: int) -> int:
    """The least multiple of a number that is not below another."""
    return -(-number // grain) * grain


def data_ranges(image: List[Segment]) -> List[DataRange]:
    """The data ranges, ascending (PROFILE.md, "Memory")."""
    code_words = Ranges((s.vaddr // 8 * 8, round_up(s.end, 8)) for s in image if s.flags & PF_X)
    ranges: List[DataRange] = []
    for segment in sorted(image, key=lambda s: s.vaddr):
        start, end = segment.vaddr // 8 * 8, round_up(segment.end, 8)
        if not segment.flags & PF_W and (segment.flags & PF_X or code_words.share(start, end)):
            continue
        if ranges and start <= ranges[-1].end:
            ranges[-1].end = max(ranges[-1].end, end)
            ranges[-1].segments.append(segment)
        else:
            ranges.append(DataRange(start, end, [segment]))
    return ranges


def _check_code_shape(file: File, code: Ranges) -> None:
    """A5 ("Admission")."""
    segments = executed(file)
    ragged = {(start, end) for start, end in code.ranges if start % 4 != 0 or (end - start) % 4 != 0}
    for number, s in enumerate(file.sections):
        part = s.addr, s.addr + s.size
        if s.is_executable and (segments.share(*part) and not segments.hold(*part) or part in ragged):
            raise Refused(f"A5: part {number}")
    for number, segment in enumerate(file.segments):
        if segment.is_load and segment.flags & PF_X and (segment.vaddr, segment.end) in ragged:
            raise Refused(f"A5: part {number}")


def _check_words(addresses: List[range], memory: Memory, base: int) -> None:
    """A6 to A9 ("Admission"). Words behind a segment's bytes in the file are 0, and at fault with none of them."""
    code: Dict[int, isa.Instruction] = {}
    for part in addresses:
        for address in range(part.start, min(part.stop, memory.file_end(part.start)), 4):
            word = memory.load(address, 4)
            instruction = isa.decode(word)
            if instruction is None:
                raise Refused(f"A6: address {hex16(address)}, word 0x{word:08x}")
            code[address] = instruction
    for address, i in code.items():
        for register in isa.writes(i) + isa.reads(i):
            if register > 13:
                raise Refused(f"A7: address {hex16(address)}, register {register}")
    for address, i in code.items():
        if i == isa.EBREAK:
            raise Refused(f"A8: address {hex16(address)}")
    for address, i in code.items():
        if i.name == "auipc":
            distance = isa.signed(address + i.imm - base)
            if not -FARTHEST_CONSTANT <= distance < FARTHEST_CONSTANT:
                raise Refused(f"A9: address {hex16(address)}")


def _check_data(file: File, data: List[DataRange]) -> None:
    """A10 ("Admission")."""
    ranges = Ranges((r.start, r.end) for r in data)
    data_segments = {id(segment) for r in data for segment in r.segments}
    for number, segment in enumerate(file.segments):
        if segment.is_load and id(segment) not in data_segments and ranges.share(segment.vaddr, segment.end):
            raise Refused(f"A10: segment {number}")


def admit(file: File, options: Options) -> Test:
    """The test that a file is, by A1 to A11, L2, L3 and L7 ("Admission")."""
    if file.flags & 1:
        raise Refused("A1: compressed")
    if any(s.type in (PT_DYNAMIC, PT_INTERP) for s in file.segments):
        raise Refused("A2: dynamic")
    image = [s for s in file.segments if s.is_load and s.memsz > 0]
    for number, segment in enumerate(file.segments):
        if segment.is_load and segment.memsz > 0 and segment.flags & PF_W and segment.flags & PF_X:
            raise Refused(f"A3: segment {number}")
    ranges = code_ranges(file)
    if file.entry % 4 != 0 or not ranges.hold(file.entry, file.entry + 1):
        raise Refused(f"A4: entry {hex16(file.entry)}")
    _check_code_shape(file, ranges)

    base = min(s.vaddr for s in image) // 4096 * 4096
    end = max(s.end for s in image)
    memory = Memory(image)
    addresses = ranges.words()
    _check_words(addresses, memory, base)
    data = data_ranges(image)
    _check_data(file, data)
    if options.half is not None and base + options.half < end:
        raise Refused(f"A11: image end {hex16(end)}, half end {hex16(base + options.half)}")

    least = round_up(end - base, 4096)
    if least > MOST_DISTANCE:
        raise Exceeded("L2", least, MOST_DISTANCE)
    count = sum(len(part) for part in addresses)
    if count > MOST_CODE_WORDS:
        raise Exceeded("L3", count, MOST_CODE_WORDS)
    distance = least if options.half is None else options.half
    if base + 3 * distance + (128 << 20) > 1 << 63:
        raise Exceeded("L7", base + 3 * distance + (128 << 20), 1 << 63)
    code = {address: isa.decode(memory.load(address, 4)) for part in addresses for address in part}
    return Test(file, image, base, end, distance, ranges, code, data)


# Leaders and blocks

def is_end(instruction: isa.Instruction) -> bool:
    """Whether an instruction is an end ("Blocks and pieces")."""
    return instruction.group in ("branch", "jal", "jalr", "ecall", "zero")


def named(file: File) -> Set[int]:
    """The addresses that symbols and relocations name ("Blocks and pieces")."""
    found = {s.value for s in file.symbols if s.shndx != 0 and s.type in (STT_NOTYPE, STT_FUNC)}
    for relocation in file.relocations:
        if relocation.type in RELOCATIONS_OF_LEADERS:
            found.add(file.symbols[relocation.symbol].value + relocation.addend & WORD)
    return found


def leaders(test: Test, options: Options) -> Set[int]:
    """The leaders ("Blocks and pieces")."""
    found = {test.file.entry} | named(test.file)
    if options.entries == "reached" and test.has_indirect:
        found |= reached(test)
    if options.lean is not None:
        found |= {address for address in test.code if address % (4 * options.inst_max) == 0}
    for address, i in test.code.items():
        if i.group in ("branch", "jal"):
            found.add(address + i.imm & WORD)
        if is_end(i):
            found.add(address + 4 & WORD)
    return {address for address in found if address in test.code}


# Reached addresses

NEAR = 16  # how many words behind the one that makes a constant are looked at
GP = 3


def _is_sum(instruction: isa.Instruction) -> bool:
    """Whether an instruction adds its immediate to rs1 ("Reached addresses")."""
    return instruction.name in ("addi", "addiw", "jalr")


def _constants(test: Test) -> Set[int]:
    """What LUI and AUIPC make, and additions to x0, with at most two immediates more ("Reached addresses")."""
    code, found = list(test.code.items()), set()
    sums = [i for _, i in code if _is_sum(i)]
    for number, (address, i) in enumerate(code):
        if i.group == "upper" or _is_sum(i) and i.rs1 == 0:
            near = [j for _, j in code[number + 1:number + 1 + NEAR] if _is_sum(j) and j.rs1 != 0]
            value = (address if i.name == "auipc" else 0) + i.imm & WORD
            once = {(j.rd, value + j.imm & WORD) for j in near if j.rs1 == i.rd}
            found |= {value} | {made for _, made in once}
            found |= {made + j.imm & WORD for register, made in once for j in (sums if register == GP else near)
                      if j.rs1 == register}
    return found


def _of_tables(test: Test, constants: Set[int]) -> Set[int]:
    """Where tables of distances lead, each from a constant on as long as it leads to code ("Reached addresses")."""
    found = set()
    for constant in constants:
        for segment in test.image:
            for offset in range(constant - segment.vaddr, len(segment.data) - 3, 4) if constant >= segment.vaddr else ():
                target = constant + isa.signed(int.from_bytes(segment.data[offset:offset + 4], "little"), 32) & WORD
                if target not in test.code:
                    break
                found.add(target)
    return found


def _of_words(test: Test) -> Set[int]:
    """The addresses of the image whose low 32 bits an aligned word of a segment has ("Reached addresses")."""
    found = set()
    for segment in test.image:
        for offset in range(-segment.vaddr % 4, len(segment.data) - 3, 4):
            word = int.from_bytes(segment.data[offset:offset + 4], "little")
            found.add(test.base + (word - test.base) % (1 << 32))
    return found


def reached(test: Test) -> Set[int]:
    """The code addresses to which a jump by register may lead ("Reached addresses")."""
    found = {test.file.entry} | named(test.file)
    found |= {address + 4 for address, i in test.code.items() if i.group in ("jal", "jalr") and i.rd != 0}
    constants = _constants(test)
    found |= constants | _of_tables(test, constants) | _of_words(test)
    return found & test.code.keys()


@dataclass
class Block:
    """A block with the lengths of its pieces ("Blocks and pieces")."""
    start: int
    body: List[isa.Instruction]
    end: Optional[isa.Instruction]
    pieces: List[int]

    @property
    def end_address(self) -> int:
        """Where its end stands, or the address that it falls to."""
        return self.start + 4 * len(self.body)


def runs(body: List[isa.Instruction]) -> List[int]:
    """The lengths of the runs of a body ("Blocks and pieces"). x0 is never written."""
    lengths, written = [], set()
    for i in body:
        used = isa.reads(i) if i.group in ("load", "store") else []
        if not lengths or any(register in written for register in used):
            lengths.append(0)
            written = set()
        lengths[-1] += 1
        written.update(register for register in isa.writes(i) if register != 0)
    return lengths


def split(body: List[isa.Instruction], most: int) -> List[int]:
    """The lengths of the pieces of a body ("Blocks and pieces")."""
    pieces = []
    for run in runs(body):
        count = -(-run // most)
        pieces.extend([run // count + 1] * (run % count) + [run // count] * (count - run % count))
    return pieces or [0]


def blocks(test: Test, options: Options) -> List[Block]:
    """The blocks in ascending order ("Blocks and pieces")."""
    starts = leaders(test, options)
    has_all = options.entries == "all" and test.has_indirect
    found = []
    for address in test.code:
        if address in starts:
            body, at = [], address
            while at in test.code and not is_end(test.code[at]) and (at == address or at not in starts):
                body.append(test.code[at])
                at += 4
            end = test.code[at] if at in test.code and (at == address or at not in starts) else None
            found.append(Block(address, body, end, split(body, options.inst_max)))
        elif has_all:
            i = test.code[address]
            found.append(Block(address, [], i, [0]) if is_end(i) else Block(address, [i], None, [1]))
    return found
