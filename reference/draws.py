"""Random files, texts and command lines for `scripts/compare`. Each is drawn from a `random.Random` alone."""

from __future__ import annotations

import random
import struct
from dataclasses import dataclass, replace
from typing import Callable, Dict, List, Optional, Tuple, Union

import isa
from admission import admit
from calls import transform
from elf import HEADER, PROGRAM_HEADER, RELA, SECTION_HEADER, SYMBOL, read_elf
from machine import GOING, start
from texts import Stopped
from words import COMMANDS, number_of, order_of

NOP = 0x13
ECALL = 0x73
EBREAK = 0x00100073


@dataclass(frozen=True)
class DraftSegment:
    """A program header with its bytes, which of code are words."""
    flags: int
    vaddr: int
    words: Tuple[int, ...] = ()
    data: bytes = b""
    more_memory: int = 0
    type: int = 1

    def content(self) -> bytes:
        """Its bytes in the file."""
        return struct.pack(f"<{len(self.words)}I", *self.words) + self.data


@dataclass(frozen=True)
class DraftSection:
    """A section header over addresses, without bytes of its own."""
    name: str
    type: int
    flags: int
    addr: int
    size: int


@dataclass(frozen=True)
class Draft:
    """A file in parts, which can be dropped one by one."""
    entry: int
    flags: int
    segments: Tuple[DraftSegment, ...]
    sections: Tuple[DraftSection, ...] = ()
    symbols: Tuple[Tuple[str, int, int, int, int, int], ...] = ()
    relocations: Tuple[Tuple[int, int, int, int], ...] = ()
    damage: Tuple[Tuple[int, int, int], ...] = ()
    cut: Optional[int] = None

    def build(self) -> bytes:
        """The bytes of the file."""
        body, offsets = bytearray(), []
        first = 64 + 56 * len(self.segments)
        for segment in self.segments:
            offsets.append(first + len(body))
            body += segment.content()
        headers = self._section_headers(body, first)
        shoff = 0
        if headers:
            body += bytes(-(first + len(body)) % 8)
            shoff = first + len(body)
            body += b"".join(headers)
        data = bytearray(HEADER.pack(b"\x7fELF", 2, 1, 1, 2, 243, 1, self.entry, 64, shoff, self.flags, 64, 56,
                                     len(self.segments), 64, len(headers), max(len(headers) - 1, 0)))
        for segment, offset in zip(self.segments, offsets):
            size = len(segment.content())
            data += PROGRAM_HEADER.pack(segment.type, segment.flags, offset, segment.vaddr, segment.vaddr, size,
                                        size + segment.more_memory, 4096)
        data += body
        for place, size, value in self.damage:
            place %= len(data)
            data[place:place + size] = (value % (1 << 8 * size)).to_bytes(size, "little")[:len(data) - place]
        return bytes(data if self.cut is None else data[:self.cut % (len(data) + 1)])

    def _section_headers(self, body: bytearray, first: int) -> List[bytes]:
        """The section headers; appends the bytes of tables to the body."""
        if not self.sections and not self.symbols and not self.relocations:
            return []
        names = bytearray(b"\0")
        headers = [bytes(64)]

        def add(name: str, kind: int, flags: int, addr: int, offset: int, size: int, link: int, info: int,
                entsize: int) -> None:
            """Adds a section."""
            headers.append(SECTION_HEADER.pack(len(names), kind, flags, addr, offset, size, link, info, 1, entsize))
            names.extend(name.encode() + b"\0")

        for section in self.sections:
            add(section.name, section.type, section.flags, section.addr, first, section.size, 0, 0, 0)
        if self.symbols or self.relocations:
            strings, table = bytearray(b"\0"), bytearray(24)
            for name, value, size, info, other, shndx in self.symbols:
                table += SYMBOL.pack(len(strings) if name else 0, info, other, shndx, value, size)
                strings += name.encode() + b"\0" if name else b""
            number = len(headers)
            add(".symtab", 2, 0, 0, first + len(body), len(table), number + 1, 0, 24)
            body += table
            add(".strtab", 3, 0, 0, first + len(body), len(strings), 0, 0, 0)
            body += strings
            if self.relocations:
                entries = b"".join(RELA.pack(offset, symbol << 32 | kind, addend)
                                   for offset, kind, symbol, addend in self.relocations)
                add(".rela.text", 4, 0, 0, first + len(body), len(entries), number, 1, 24)
                body += entries
        offset = first + len(body)
        add(".shstrtab", 3, 0, 0, offset, len(names) + len(".shstrtab") + 1, 0, 0, 0)
        body += names
        return headers


@dataclass(frozen=True)
class Text:
    """A text in lines, which can be dropped one by one."""
    lines: Tuple[str, ...]
    ends_line: bool = True

    def build(self) -> bytes:
        """The bytes of the text."""
        return ("\n".join(self.lines) + ("\n" if self.ends_line else "")).encode("latin-1")


@dataclass(frozen=True)
class Case:
    """Files, and calls that are made one after the other over them."""
    files: Dict[str, Union[Draft, Text]]
    calls: Tuple[Tuple[str, ...], ...]

    def built(self) -> Dict[str, bytes]:
        """The bytes of its files."""
        return {name: file.build() for name, file in self.files.items()}


def chance(rng: random.Random, percent: float) -> bool:
    """True so often in a hundred."""
    return rng.random() * 100 < percent


# Code

COMPUTING = [name for name, kind in isa.KINDS.items() if kind.group in ("immediate", "register")]
LOADS = [name for name, kind in isa.KINDS.items() if kind.group == "load"]
STORES = [name for name, kind in isa.KINDS.items() if kind.group == "store"]
BRANCHES = [name for name, kind in isa.KINDS.items() if kind.group == "branch"]
EDGES = [0, 1, -1, 2, 7, 8, 31, 32, 63, -2048, 2047, 1024, -1024]
BASE, COUNTER = 8, 9


def encoded(name: str, rd: int = 0, rs1: int = 0, rs2: int = 0, imm: int = 0) -> int:
    """A word, with the immediate of the nearest kind that fits."""
    return isa.encode(isa.Instruction(name, rd, rs1, rs2, imm))


def draw_register(rng: random.Random, bad: float = 0) -> int:
    """A register of a test, rarely another, and more often one of a few."""
    if bad and chance(rng, bad):
        return rng.randrange(14, 32)
    return rng.choice([0, 1, 5, 6, 7, 10, 11, 12, 13, 13, 12, 11, 10, 2, 3, 4, BASE, COUNTER])


def draw_computing(rng: random.Random, bad: float) -> int:
    """A word that computes."""
    name = rng.choice(COMPUTING)
    kind = isa.KINDS[name]
    rd, rs1, rs2 = (draw_register(rng, bad) for _ in range(3))
    if rd in (BASE, COUNTER) and not chance(rng, 10):
        rd = 5
    if kind.format == "R":
        return encoded(name, rd, rs1, rs2)
    if kind.format == "I":
        return encoded(name, rd, rs1, 0, rng.choice(EDGES) if chance(rng, 50) else rng.randrange(-2048, 2048))
    return encoded(name, rd, rs1, 0, rng.randrange(64 if kind.format == "H" else 32))


def draw_access(rng: random.Random, bad: float, room: int) -> int:
    """A load or a store, mostly of the data at the base register."""
    base = BASE if chance(rng, 92) else draw_register(rng, bad)
    offset = rng.randrange(0, max(room, 1)) // 8 * 8 if chance(rng, 70) else rng.randrange(-8, room + 8)
    offset = max(-2048, min(2047, offset))
    if chance(rng, 55):
        return encoded(rng.choice(LOADS), draw_register(rng, bad), base, 0, offset)
    return encoded(rng.choice(STORES), 0, base, draw_register(rng, bad), offset)


def draw_values(rng: random.Random, most: int) -> List[int]:
    """Words that give registers values of many kinds."""
    words = []
    while len(words) < most:
        register = rng.choice([1, 5, 6, 7, 10, 11, 12, 13])
        words += rng.choice([
            [encoded("addi", register, 0, 0, rng.choice(EDGES))],
            [encoded("lui", register, imm=rng.choice([-(1 << 31), (1 << 31) - 4096, rng.randrange(-512, 512) << 21])),
             encoded("addi", register, register, 0, rng.randrange(-2048, 2048))],
            [encoded("addi", register, 0, 0, rng.choice([1, -1, 3])), encoded("slli", register, register, 0, 63)],
            [encoded("lui", register, imm=isa.signed(rng.getrandbits(20) << 12, 32)),
             encoded("slli", register, register, 0, rng.randrange(64))]])
    return words


def draw_code(rng: random.Random, size: int, base: int, data: int, room: int, oddities: float) -> List[int]:
    """The words of a test, which mostly ends."""
    bad = oddities / 50
    words = [encoded("lui", BASE, imm=isa.signed(data & 0xFFFFF000, 32))] if data else []
    if data & 0xFFF:
        words.append(encoded("addi", BASE, BASE, 0, min(data & 0xFFF, 2047)))
    if size > 5 and chance(rng, 80):
        words += draw_values(rng, size // 3)
    while len(words) < size:
        at = 4 * len(words)
        left = size - len(words)
        kind = rng.random() * 100
        if kind < 50:
            words.append(draw_computing(rng, bad))
        elif kind < 72:
            words.append(draw_access(rng, bad, room) if data or chance(rng, 10) else NOP)
        elif kind < 76:
            words.append(encoded("lui", draw_register(rng, bad), imm=isa.signed(rng.getrandbits(20) << 12, 32)))
        elif kind < 79:
            words.append(encoded("auipc", draw_register(rng, bad), imm=rng.choice([0, 4096, -4096, 0x10000])))
        elif kind < 88:
            name, target = rng.choice(BRANCHES), 4 * rng.randrange(1, min(left, 8) + 2)
            words.append(encoded(name, 0, draw_register(rng, bad), draw_register(rng, bad), target))
        elif kind < 91:
            words.append(encoded("jal", draw_register(rng, bad), imm=4 * rng.randrange(1, min(left, 8) + 2)))
        elif kind < 94 and left > 5:
            body = [draw_computing(rng, 0) for _ in range(rng.randrange(1, 4))]
            words.append(encoded("addi", COUNTER, 0, 0, rng.randrange(1, 5)))
            words += [word for word in body if isa.writes(isa.decode(word)) != [COUNTER]]
            back = -4 * (len(words) - at // 4)
            words += [encoded("addi", COUNTER, COUNTER, 0, -1), encoded("bne", 0, COUNTER, 0, back)]
        elif kind < 96 and left > 3:
            words += [encoded("auipc", 5), encoded("jalr", rng.choice([0, 1, 1, 5]), 5, 0,
                                                   4 * rng.randrange(2, min(left, 8) + 1))]
        elif kind < 97:
            words.append(rng.choice([0x0FF0000F, 0x0000000F, 0x8330000F]))
        elif chance(rng, oddities):
            words.append(rng.choice([
                0, ECALL, EBREAK, 0xFFFFFFFF, 0x0000100F, 0x30200073, 0x0200129B, rng.getrandbits(32),
                encoded("jal", 0, imm=0), encoded("jal", 1, imm=2), encoded("jal", 0, imm=-4),
                encoded("auipc", 5, imm=rng.choice([1 << 28, -(1 << 28), (1 << 28) - 4096, 1 << 30])),
                encoded("jalr", 1, 1, 0, 0), encoded("beq", 0, 0, 0, 6), encoded("beq", 0, 1, 1, -8)]))
    words[size:] = []
    words.append(ECALL if chance(rng, 95) else rng.choice([NOP, 0, encoded("jal", 0, imm=0)]))
    return words


# Files

NAMES = ["_start", "main", "f", "data", "loop", "x", "", "été"]
RELOCATIONS = [1, 2, 16, 17, 18, 19, 23, 24, 26, 27, 28, 35, 51, 0, 3]


def draw_number(rng: random.Random) -> int:
    """A number that is often at an edge."""
    edges = [0, 1, 2, 3, 4, 7, 8, 24, 56, 64, 0xFFF, 0x1000, 0xFFFF, 0x10000, 0xFFFFFFFF, 1 << 32, 1 << 63,
             (1 << 63) - 1, (1 << 64) - 1, (1 << 64) - 8]
    return (rng.choice(edges) + rng.choice([0, 0, 0, 1, -1])) % (1 << 64)


def draw_draft(rng: random.Random, oddities: float) -> Draft:
    """A file, of which so many in a hundred parts are unusual."""
    base = rng.choice([0x10000, 0x10000, 0x1000, 0x80000000, 0x40000, 0, 0x10004, 0x1FF8])
    if chance(rng, oddities / 10):
        base = rng.choice([1 << 40, (1 << 63) - (1 << 28), (1 << 62) + 0x1000, (1 << 64) - 0x1000])
    size = rng.choice([1, 2, 3, 4, 6, 10, 17, 18, 30, 60])
    room = rng.choice([0, 8, 8, 16, 24, 64, 200])
    code_end = base + 4 * size + 4
    data = rng.choice([base + 0x10000, base + 0x1000, (code_end + 7) // 8 * 8]) if room else 0
    if data and chance(rng, 10 + oddities):
        data += rng.choice([1, 3, 4, 8, 12, 0x7F8])
    words = draw_code(rng, size, base, data if data < 1 << 31 else 0, room, oddities)
    tail = rng.randbytes(rng.choice([4, 8, 16])) if chance(rng, 8) else b""
    segments = [DraftSegment(5 if chance(rng, 95) else rng.choice([1, 5, 7, 13]), base, tuple(words), tail,
                             0 if chance(rng, 96) else rng.choice([1, 4, 8, 64]))]
    if room:
        stored = rng.choice([room, room, room // 2, 0, room - 1])
        flags = 6 if chance(rng, 85) else rng.choice([4, 2, 0, 14, 6])
        segments.append(DraftSegment(flags, data, (), rng.randbytes(stored), room - stored))
        more = data + room
        while chance(rng, 25) and len(segments) < 6:
            more += rng.choice([0, 0, 1, 4, 8, 16, 0x1000]) if not chance(rng, oddities / 2) else -8
            length = rng.choice([1, 4, 8, 8, 16, 40])
            stored = rng.choice([length, 0, length // 2])
            segments.append(DraftSegment(rng.choice([4, 6, 6, 0, 5]) if chance(rng, 70) else 6, more, (),
                                         rng.randbytes(stored), length - stored))
            more += length
    if chance(rng, 10):
        segments.append(DraftSegment(4, draw_number(rng), (), b"", 0, rng.choice([1, 4, 6, 0x6474E551])))
    if chance(rng, oddities / 4):
        segments.append(DraftSegment(rng.choice([4, 6]), draw_number(rng), (), b"", 8, rng.choice([2, 3, 1, 1])))
    if chance(rng, 20):
        rng.shuffle(segments)
    segments = [replace(segment, vaddr=segment.vaddr % (1 << 64)) for segment in segments]
    entry = base if chance(rng, 90) else base + rng.choice([4, 8, 2, 4 * size, 0x1000, -4])
    draft = Draft(entry % (1 << 64), 0 if chance(rng, 97) else rng.choice([1, 2, 4, 5, 8]), tuple(segments))
    return draw_tables(rng, draft, base, len(words), oddities) if chance(rng, 55) else draft


def draw_tables(rng: random.Random, draft: Draft, base: int, count: int, oddities: float) -> Draft:
    """The same file with sections, symbols and relocations."""
    code = [base + 4 * number for number in range(count + 1)]
    places = code + [segment.vaddr for segment in draft.segments] + [draw_number(rng)]
    sections = [DraftSection(".text", 1, 6, base, 4 * count)]
    if chance(rng, 10):
        sections = []
    elif chance(rng, 15) and count > 2:
        middle = 4 * rng.randrange(1, count)
        sections = [DraftSection(".text", 1, 6, base, middle),
                    DraftSection(".more", rng.choice([1, 8]), 6, base + middle + rng.choice([0, 0, 4]),
                                 max(4 * count - middle - 4, 0))]
    while chance(rng, 20):
        sections.append(DraftSection(rng.choice([".data", ".note", ""]), rng.choice([0, 1, 7, 8]),
                                     rng.choice([0, 2, 3, 2, 6] if chance(rng, oddities) else [0, 2, 3]),
                                     rng.choice(places), rng.choice([0, 1, 4, 8])))
    if chance(rng, oddities):
        victim = rng.randrange(len(sections)) if sections else None
        if victim is not None:
            sections[victim] = replace(sections[victim], addr=(sections[victim].addr + rng.choice([-4, 2, 4, 1])),
                                       size=max(sections[victim].size + rng.choice([0, -1, 4, -4, 8]), 0))
    symbols = []
    while chance(rng, 70) and len(symbols) < 8:
        symbols.append((rng.choice(NAMES), rng.choice(places) % (1 << 64), rng.choice([0, 4, 8]),
                        rng.choice([0, 1, 2]) << 4 | rng.choice([0, 0, 1, 2, 2, 3, 4]), rng.choice([0, 0, 2]),
                        rng.choice([0, 1, 1, 1, 0xFFF1])))
    relocations = []
    while sections and chance(rng, 40) and len(relocations) < 6:
        relocations.append((rng.choice(places) % (1 << 64), rng.choice(RELOCATIONS),
                            rng.randrange(len(symbols) + 1 + (1 if chance(rng, oddities) else 0)),
                            rng.choice([0, 0, 4, 8, -4, base])))
    sections = [replace(s, addr=s.addr % (1 << 64)) for s in sections]
    return replace(draft, sections=tuple(sections), symbols=tuple(symbols),
                   relocations=tuple(r for r in relocations if -(1 << 63) <= r[3] < 1 << 63))


# Where the fields of each header stand in it, with their sizes.
FILE_FIELDS = [(0, 4), (4, 1), (5, 1), (6, 1), (7, 1), (16, 2), (18, 2), (20, 4), (24, 8), (32, 8), (40, 8), (48, 4),
               (52, 2), (54, 2), (56, 2), (58, 2), (60, 2), (62, 2)]
PROGRAM_FIELDS = [(0, 4), (4, 4), (8, 8), (16, 8), (24, 8), (32, 8), (40, 8), (48, 8)]
SECTION_FIELDS = [(0, 4), (4, 4), (8, 8), (16, 8), (24, 8), (32, 8), (40, 4), (44, 4), (48, 8), (56, 8)]


def draw_damage(rng: random.Random, data: bytes) -> Tuple[int, int, int]:
    """A place in a file, a size, and the number that is put there."""
    phoff, shoff = struct.unpack_from("<QQ", data, 32)
    phnum, _, shnum = struct.unpack_from("<HHH", data, 56)
    groups = [(0, FILE_FIELDS)]
    groups += [(phoff + 56 * number, PROGRAM_FIELDS) for number in range(phnum)]
    groups += [(shoff + 64 * number, SECTION_FIELDS) for number in range(shnum)] * 2
    if chance(rng, 15):
        return rng.randrange(len(data)), rng.choice([1, 2, 4, 8]), draw_number(rng)
    start, fields = rng.choice(groups)
    offset, size = rng.choice(fields)
    old = int.from_bytes(data[start + offset:start + offset + size], "little")
    return start + offset, size, rng.choice([draw_number(rng), old + 1, old - 1, old + 8, old * 2, rng.randrange(10),
                                             len(data) - old, rng.getrandbits(64)])


def draw_damaged(rng: random.Random) -> Draft:
    """A file with some of its fields changed, or cut."""
    draft = draw_draft(rng, 5)
    data = draft.build()
    damage = [draw_damage(rng, data) for _ in range(rng.choice([1, 1, 1, 2, 3]))]
    return replace(draft, damage=tuple(damage),
                   cut=rng.choice([rng.randrange(len(data)), len(data) - 1]) if chance(rng, 10) else None)


# Words

def draw_options(rng: random.Random, many: float = 5) -> List[str]:
    """Options of the weave that are mostly sound. So many rounds in a hundred are of so many words that they cost time."""
    words = []
    if chance(rng, 30):
        words += ["--inst-max", str(rng.choice([1, 2, 3, 4, 5, 8, 15, 17, 40, 1024]))]
    if chance(rng, 5):
        words += ["--inst-min", str(rng.choice([1, 2, 3, 4, 8, 9]))]
    if chance(rng, 30):
        words += [f"--round={rng.choice([1, 2, 3, 4, 7, 16] + ([300, 1024] if chance(rng, many) else []))}"]
    if chance(rng, 12):
        words += ["--half", hex(rng.choice([0x1000, 0x2000, 0x11000, 0x12000, 0x20000, 0x100000, 0x20000000]))]
    if chance(rng, 30):
        words += ["--entries", rng.choice(["reached", "reached", "reached", "all"])]
    if chance(rng, 25):
        words += ["--lean"] + (["--every", str(rng.choice([30, 100, 900, 2047, 2048]))] if chance(rng, 50) else [])
        words += ["--land"] if chance(rng, 50) else []
    return words + [flag for flag in ("--sweep", "--diverse") if chance(rng, 25)]


def draw_value(rng: random.Random) -> int:
    """A value of a change."""
    return rng.choice([0, 1, 7, (1 << 64) - 1, rng.getrandbits(64), rng.getrandbits(16)])


def draw_faults(rng: random.Random, places: List[str], steps: int) -> List[str]:
    """Changes of a run."""
    words = []
    while chance(rng, 60) and len(words) < 8:
        words += ["--fault", f"{rng.randrange(steps + 1)}:{rng.choice(places)}={draw_value(rng)}"]
    return words


def groups_of(file: bytes, most: int) -> List[str]:
    """The groups of the instructions that a run makes in so many steps. What is no file makes none."""
    groups: List[str] = []
    try:
        hart = start(read_elf(file))
    except Stopped:
        return groups
    while hart.outcome == GOING and len(groups) < most:
        word = hart.next_word()
        i = None if word is None else isa.decode(word)
        groups.append("" if i is None else i.group)
        hart.step()
    return groups


def draw_slip(rng: random.Random, file: bytes, addresses: List[str], steps: int) -> List[str]:
    """A slip of a run, often none, and often one that its instruction has."""
    if chance(rng, 50):
        return []
    way = rng.choice(["skip", "branch", "result", "store", "place"])
    group = {"branch": "branch", "store": "store", "place": "store"}.get(way)
    found = [step for step, other in enumerate(groups_of(file, steps)) if group in (None, other)]
    step = rng.choice(found) if found and chance(rng, 80) else rng.randrange(steps + 1)
    place = rng.choice(addresses + [str(draw_number(rng))])
    value = {"result": f"={draw_value(rng)}", "store": f"={draw_value(rng)}", "place": f"={place}"}.get(way, "")
    return ["--slip", f"{step}:{way}{value}"]


def output_of(draft: Draft, options: List[str]) -> bytes:
    """The output of a test, or nothing where there is none."""
    try:
        return transform(draft.build(), order_of(["plan", "IN", *options]).options()).output
    except Stopped:
        return b""


def draw_edge_draft(rng: random.Random) -> Draft:
    """A file whose accesses are at both ends of memory, or in its own code."""
    at_ends = chance(rng, 60)
    start = encoded("addi", BASE, 0, 0, rng.choice([-8, -4, -1, 0, 4])) if at_ends else encoded("auipc", BASE)
    words = [start]
    for _ in range(rng.choice([1, 3, 8, 20])):
        imm = rng.randrange(-8, 9) if at_ends else rng.randrange(0, 64)
        access = (encoded(rng.choice(LOADS), draw_register(rng), BASE, 0, imm) if chance(rng, 50)
                  else encoded(rng.choice(STORES), 0, BASE, draw_register(rng), imm))
        words += [access, draw_computing(rng, 0)]
    segments = [DraftSegment(rng.choice([5, 7, 7]), 0x10000, tuple(words) + (ECALL,))]
    if at_ends:
        segments += [DraftSegment(rng.choice([6, 6, 4, 2]), 0, (), rng.randbytes(8), 8),
                     DraftSegment(rng.choice([6, 6, 4, 2]), (1 << 64) - 8, (), rng.randbytes(rng.choice([8, 4])))]
        segments = segments[:rng.choice([2, 3, 3])]
    return Draft(0x10000, 0, tuple(segments))


def draw_run(rng: random.Random) -> Case:
    """Runs of a file, of an output, with changes, slips and dumps."""
    draft = draw_edge_draft(rng) if chance(rng, 15) else draw_draft(rng, rng.choice([0, 5, 40]))
    registers = [f"x{number}" for number in range(1, 32)]
    words = [str(segment.vaddr // 8 * 8) for segment in draft.segments]
    addresses = words + [str(int(rng.choice(words)) + 8), "0", str((1 << 64) - 8)]
    places = registers[:13] + (registers if chance(rng, 30) else []) + addresses * 2
    places = [place for place in places if place.startswith("x") or int(place) < 1 << 64]
    if chance(rng, 40):
        steps = rng.choice([0, 1, 5, 100, 300])
        dump = ["--dump", f"{rng.choice(words)}:{rng.choice([1, 8, 16, 17, 40])}"] if chance(rng, 40) else []
        more = ["--reached"] if chance(rng, 50) else draw_slip(rng, draft.build(), words, 40)
        return Case({"IN": draft}, (("run", "IN", "--steps", str(steps), *draw_faults(rng, places, 40), *dump, *more),))
    steps = rng.choice([50, 300, 1000, 3000])
    options = draw_options(rng)
    runs = [("transform", "IN", "OUT", *options)]
    output = output_of(draft, options)
    for _ in range(rng.choice([1, 2, 3])):
        runs.append(("run", "OUT", "--steps", str(steps), *draw_faults(rng, places, min(steps, 400)),
                     *draw_slip(rng, output, words, min(steps, 400))))
    return Case({"IN": draft}, tuple(runs))


def draw_transform(rng: random.Random) -> Case:
    """A transformed test."""
    draft = draw_draft(rng, rng.choice([0, 5, 30]))
    return Case({"IN": draft}, (("transform", "IN", "OUT", *draw_options(rng)),))


def draw_plan(rng: random.Random) -> Case:
    """A planned test."""
    return Case({"IN": draw_draft(rng, rng.choice([0, 5, 30]))}, (("plan", "IN", *draw_options(rng)),))


def new_code(draft: Draft, words: List[str]) -> int:
    """Where the new code of a test begins, or 0 where there is none."""
    try:
        return admit(read_elf(draft.build()), order_of(words).options()).new_code
    except Stopped:
        return 0


def draw_explain(rng: random.Random) -> Case:
    """What the words of new code are for: all of them, and some by their addresses."""
    draft = draw_draft(rng, rng.choice([0, 5, 30]))
    words = ["explain", "IN", *draw_options(rng, 0)]
    first, calls = new_code(draft, words), [tuple(words)]
    for _ in range(rng.choice([0, 1, 3])):
        at = first + rng.choice([4 * rng.randrange(70), 4 * rng.randrange(70), 4 * rng.randrange(300), rng.randrange(999), -4])
        calls.append((*words, "--at", rng.choice([str, hex])(at % (1 << 64))))
    return Case({"IN": draft}, tuple(calls))


def draw_read(rng: random.Random) -> Case:
    """A damaged file, read by each command."""
    draft = draw_damaged(rng)
    calls = [("transform", "IN", "OUT"), ("list", "IN"), ("run", "IN", "--steps", "20"), ("run", "IN", "--reached"),
             ("plan", "IN"), ("explain", "IN"), ("harts", "IN", "--steps", "9")]
    return Case({"IN": draft}, tuple(rng.sample(calls, 2)))


def stops(draft: Draft) -> bool:
    """Whether the run of a file stops soon. What is no file stops at once."""
    try:
        hart = start(read_elf(draft.build()))
    except Stopped:
        return True
    hart.run(500)
    return hart.outcome != GOING


def draw_campaign(rng: random.Random) -> Case:
    """A campaign over a test that stops soon: else the runs are long."""
    draft = draw_draft(rng, rng.choice([0, 0, 3]))
    while not stops(draft):
        draft = draw_draft(rng, 0)
    is_of_slips = chance(rng, 30)
    words = ["campaign", "IN", "--seed", str(draw_number(rng)), "--count", str(rng.choice([3, 30] if is_of_slips else [1, 3, 10])),
             *draw_options(rng)]
    if is_of_slips:
        words += ["--only", "slips"]
    else:
        if chance(rng, 40):
            words += ["--changes", str(rng.choice([2, 3, 16]))]
        if chance(rng, 30):
            words += ["--only", rng.choice(["registers", "words"])]
    if chance(rng, 30):
        words += ["--from", str(rng.choice([0, 1, 7, 40, 1000]))]
    if chance(rng, 30):
        words += ["--to", str(rng.choice([1, 8, 41, 2000]))]
    if chance(rng, 40):
        words.append("--results")
    return Case({"IN": draft}, (tuple(words),))


def draw_gen(rng: random.Random) -> Case:
    """A generated test, and its output."""
    calls = [("gen", "OUT", "--seed", str(draw_number(rng)), "--size", str(rng.choice([1, 31, 32, 32, 33, 64])))]
    if chance(rng, 30):
        calls.append(("transform", "OUT", "OUT", *draw_options(rng, 0)))
    return Case({}, tuple(calls))


def draw_list(rng: random.Random) -> Case:
    """A listing."""
    draft = draw_draft(rng, 60)
    words = tuple(draw_word(rng) for _ in range(rng.randrange(1, 12)))
    segments = (replace(draft.segments[0], words=words), *draft.segments[1:])
    return Case({"IN": replace(draft, segments=segments)}, (("list", "IN"),))


def draw_word(rng: random.Random) -> int:
    """A word near a row of the table."""
    kind = rng.choice(list(isa.KINDS.values()))
    word = kind.match | rng.getrandbits(32) & ~isa.FORMATS[kind.format].mask
    return word ^ (1 << rng.randrange(32) if chance(rng, 20) else 0)


def draw_harts(rng: random.Random) -> Case:
    """Several harts, which may stand apart and may share memory."""
    count = rng.choice([1, 2, 2, 3, 8])
    files, calls = {}, []
    for number in range(count):
        draft = draw_draft(rng, rng.choice([0, 0, 20]))
        shift = 0x1000000 * number if chance(rng, 90) else 0
        segments = tuple(replace(s, vaddr=(s.vaddr + shift) % (1 << 64)) for s in draft.segments)
        files[f"A{number}"] = Draft((draft.entry + shift) % (1 << 64), draft.flags, segments)
    names = tuple(files)
    words = ["--steps", str(rng.choice([0, 1, 10, 99, 400]))]
    if chance(rng, 60):
        digits = "".join(str(rng.randrange(count)) for _ in range(rng.choice([1, 2, 3, 7])))
        words += ["--turns", digits]
    if chance(rng, 30):
        calls.append(("transform", "A0", "A0"))
    return Case(files, (*calls, ("harts", *names, *words)))


# Texts

def draw_asm(rng: random.Random) -> Case:
    """A text, with faults in some lines."""
    faults = rng.choice([0, 0, 3])
    labels = ["a", "b_1", "_", "add", "x5", "A"]
    lines = []
    for _ in range(rng.choice([1, 2, 4, 8, 15])):
        lines.append(draw_line(rng, labels, faults))
    if chance(rng, 40):
        lines.append(".data")
        for _ in range(rng.randrange(5)):
            wrong = ["add x1, x1, x1", ".word64 -1", ".word64"] if faults else []
            lines.append(rng.choice([".word64 0x10", ".word64\t18446744073709551615", "d:", ".data", "# no",
                                     " .word64 007  #x"] + wrong))
    unused = [label + ":" for label in labels if chance(rng, 40)]
    for label in unused:
        lines.insert(rng.randrange(len(lines) + 1), label)
    ends = chance(rng, 80)
    calls = [("asm", "S", "OUT")]
    if chance(rng, 40):
        calls.append(rng.choice([("list", "OUT"), ("transform", "OUT", "W"), ("run", "OUT", "--steps", "50")]))
    return Case({"S": Text(tuple(lines), ends)}, tuple(calls))


IMMEDIATES = ["2047", "2048", "-2048", "-2049", "31", "32", "64", "4094", "4096", "-4096", "-0", "1048574", "1048576",
              "0x7FF", "+1", "", "nine", "18446744073709551616", "018446744073709551615"]


def draw_line(rng: random.Random, labels: List[str], faults: float) -> str:
    """A line of code."""
    text = isa.text_of(draw_word(rng))
    if text.startswith(("b", "j")) and chance(rng, 50):
        text = text.rpartition(" ")[0] + " " + rng.choice(labels)
    if text.startswith(("lui", "auipc")) and chance(rng, 30):
        text = text.rpartition(" ")[0] + " " + str(rng.choice([0, 1048575, 0x20]))
    if chance(rng, 30):
        for sign in (",", "(", ")"):
            text = text.replace(sign, rng.choice([sign, " " + sign, sign + "\t", " " + sign + "  "]))
    if chance(rng, 10 * faults):
        place = rng.randrange(len(text) + 1)
        change = rng.choice(["", " ", ",", "x", "0", "-", "9999", "\t", ":", "#", "(", "\r", "\xe9", "0x"])
        text = text[:place] + change + text[place + rng.randrange(2):]
    if chance(rng, 5 * faults):
        text = text.rpartition(" ")[0] + " " + rng.choice(IMMEDIATES)
    if chance(rng, 10):
        text = rng.choice(["", "  ", "# all", "zero", "word 0x0000FFff", "\tecall ", "fence x0, x0, 255"])
    return rng.choice(["", " ", "\t"]) + text + rng.choice(["", "", " ", " # c", "#"])


VALUES = ["0", "1", "2", "4", "8", "9", "16", "17", "1024", "1025", "4096", "4097", "0x1000", "0x20000000",
          "0x20001000", "1000000000000", "1000000000001", "18446744073709551615", "18446744073709551616", "0x", "0xg",
          "x", "-1", "", "0:x1=1", "5:x31=0xff", "0:x32=1", "0:x01=1", "1:8=1", "1:9=1", ":8=1", "1:8", "0:1",
          "0:65536", "0:65537", "0xffffffffffffffff:1", "0xffffffffffffffff:2", "01", "012345678", "9", "10000",
          "10001", "60000", "60001", "1000000", "1000001", "registers", "words", "slips", "all", "reached",
          "5:skip", "0:branch", "1:result=0xff", "2:store=7", "3:place=9", "4:skip=", "5:result", ":store=1", "x:place=1"]
OPTIONS = ["inst-min", "inst-max", "round", "half", "entries", "sweep", "diverse", "lean", "every", "land",
           "steps", "fault", "slip", "dump", "seed", "count", "changes", "only", "from", "to", "results", "reached", "size",
           "turns", "at", "help", ""]


def draw_words(rng: random.Random) -> Case:
    """Words of a command line, which mostly ask for nothing."""
    words = [rng.choice(list(COMMANDS) * 4 + ["", "Plan", "-h"])]
    values = [value for value in VALUES if words[0] != "gen" or not 64 < (number_of(value) or 0) <= 60000]
    command = COMMANDS.get(words[0])
    if command and chance(rng, 50):
        words += ["IN"] * rng.randrange(command.least_files, command.most_files + 1)
        for name in command.needed + [name for name in command.options + command.flags if chance(rng, 30)]:
            words += ["--" + name] if name in command.flags else [f"--{name}={rng.choice(values)}"]
    for _ in range(rng.choice([0, 0, 1, 2, 4, 6])):
        kind = rng.random()
        if kind < 0.35:
            words.append(rng.choice(["a", "b", "IN", "x=1", "", "-", "--"]))
        elif kind < 0.65:
            words += ["--" + rng.choice(OPTIONS), rng.choice(values)]
        elif kind < 0.9:
            words.append("--" + rng.choice(OPTIONS) + "=" + rng.choice(values))
        else:
            words.append(rng.choice(["--", "-", "---"]) + rng.choice(OPTIONS))
    return Case({}, (tuple(words),) if chance(rng, 99) else ((),))


KINDS: Dict[str, Callable[[random.Random], Case]] = {
    "transform": draw_transform, "plan": draw_plan, "explain": draw_explain, "read": draw_read, "run": draw_run,
    "campaign": draw_campaign, "gen": draw_gen, "list": draw_list, "asm": draw_asm, "harts": draw_harts, "words": draw_words}


# Smaller cases

def smaller_drafts(draft: Draft) -> List[Draft]:
    """The same file with one part less."""
    found = [replace(draft, cut=None)] if draft.cut is not None else []
    for name in ("damage", "relocations", "symbols", "sections", "segments"):
        parts = getattr(draft, name)
        found += [replace(draft, **{name: parts[:k] + parts[k + 1:]}) for k in range(len(parts))]
    for k, segment in enumerate(draft.segments):
        others, count = [], len(segment.words)
        for length in sorted({count // 2, count // 4, count // 8, 1} - {0}, reverse=True):
            others += [segment.words[:first] + segment.words[first + length:] for first in range(0, count, length)]
        for number, word in enumerate(segment.words):
            if word != NOP:
                others.append(segment.words[:number] + (NOP,) + segment.words[number + 1:])
        changed = [replace(segment, words=words) for words in others]
        if segment.data:
            changed += [replace(segment, data=segment.data[:len(segment.data) // 2]), replace(segment, data=b"")]
        if segment.more_memory:
            changed.append(replace(segment, more_memory=0))
        found += [replace(draft, segments=draft.segments[:k] + (other,) + draft.segments[k + 1:]) for other in changed]
    return found


def smaller(case: Case) -> List[Case]:
    """The same case with one part less."""
    found = []
    for k in range(len(case.calls)):
        if len(case.calls) > 1:
            found.append(replace(case, calls=case.calls[:k] + case.calls[k + 1:]))
        call = case.calls[k]
        for first in range(1, len(call)):
            for count in (2, 1):
                shorter = call[:first] + call[first + count:]
                found.append(replace(case, calls=case.calls[:k] + (shorter,) + case.calls[k + 1:]))
    for name, file in case.files.items():
        if isinstance(file, Draft):
            others: List[Union[Draft, Text]] = list(smaller_drafts(file))
        else:
            others = [replace(file, lines=file.lines[:k] + file.lines[k + 1:]) for k in range(len(file.lines))]
        found += [replace(case, files={**case.files, name: other}) for other in others]
    return found
