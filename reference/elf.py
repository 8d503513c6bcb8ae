"""The reader of ELF files (docs/FORMATS.md, "ELF files" and "Limits")."""

from __future__ import annotations

import struct
from collections import namedtuple
from dataclasses import dataclass, field
from typing import Dict, Iterable, List, Optional, Tuple

from texts import Exceeded, Refused

PT_LOAD, PT_DYNAMIC, PT_INTERP = 1, 2, 3
PF_X, PF_W, PF_R = 1, 2, 4
SHT_NULL, SHT_PROGBITS, SHT_SYMTAB, SHT_STRTAB, SHT_RELA, SHT_NOBITS = 0, 1, 2, 3, 4, 8
SHF_WRITE, SHF_ALLOC, SHF_EXECINSTR = 1, 2, 4
STB_LOCAL, STB_GLOBAL = 0, 1
STT_NOTYPE, STT_OBJECT, STT_FUNC = 0, 1, 2

HEADER = struct.Struct("<4sBBB9xHHIQQQIHHHHHH")
PROGRAM_HEADER = struct.Struct("<IIQQQQQQ")
SECTION_HEADER = struct.Struct("<IIQQQQIIQQ")
SYMBOL = struct.Struct("<IBBHQQ")
RELA = struct.Struct("<QQq")

MOST_SECTIONS = 4096
MOST_COUNTED_BYTES = 1 << 30


@dataclass
class Segment:
    """A program header with its bytes ("A program header: 56 bytes")."""
    type: int
    flags: int
    offset: int
    vaddr: int
    filesz: int
    memsz: int
    data: bytes = b""

    @property
    def end(self) -> int:
        """The address behind its bytes in memory."""
        return self.vaddr + self.memsz

    @property
    def is_load(self) -> bool:
        """Whether it is of type PT_LOAD."""
        return self.type == PT_LOAD


@dataclass
class Section:
    """A section header with its name ("A section header: 64 bytes")."""
    name_offset: int
    type: int
    flags: int
    addr: int
    offset: int
    size: int
    link: int
    info: int
    entsize: int
    name: bytes = b""

    @property
    def has_bytes(self) -> bool:
        """Whether it has bytes in the file."""
        return self.type not in (SHT_NULL, SHT_NOBITS) and self.size > 0

    @property
    def is_executable(self) -> bool:
        """Whether it has SHF_ALLOC and SHF_EXECINSTR ("A file in memory")."""
        return self.flags & (SHF_ALLOC | SHF_EXECINSTR) == SHF_ALLOC | SHF_EXECINSTR


@dataclass
class Symbol:
    """A symbol with its name ("A symbol: 24 bytes")."""
    name: bytes
    type: int
    binding: int
    other: int
    shndx: int
    value: int
    size: int

    @property
    def is_telling(self) -> bool:
        """It has a name, and none of a mapping symbol, which begin with `$` (RISC-V ELF psABI)."""
        return self.name != b"" and not self.name.startswith(b"$")

    @property
    def is_utf8(self) -> bool:
        """Whether its name is UTF-8."""
        try:
            self.name.decode()
            return True
        except UnicodeDecodeError:
            return False


@dataclass
class Relocation:
    """An entry of a counted section of relocations ("A RELA entry: 24 bytes")."""
    offset: int
    type: int
    symbol: int
    addend: int


@dataclass
class File:
    """What the reader gives of a file."""
    entry: int
    flags: int
    segments: List[Segment] = field(default_factory=list)
    sections: List[Section] = field(default_factory=list)
    symbols: List[Symbol] = field(default_factory=list)
    relocations: List[Relocation] = field(default_factory=list)

    def nearest(self, address: int) -> Optional[Symbol]:
        """The nearest symbol of code at or below an address ("Roles")."""
        below = [s for s in self.symbols if s.shndx != 0 and s.type in (STT_NOTYPE, STT_FUNC) and s.is_telling
                 and s.value <= address]
        value = max((s.value for s in below), default=None)
        same = [s for s in below if s.value == value]
        return next((s for s in same if s.is_utf8), same[0]) if same else None


Header = namedtuple("Header", "magic form encoding ident_version type machine version entry phoff shoff flags ehsize "
                    "phentsize phnum shentsize shnum shstrndx")  # "The header: 64 bytes"


def _header(data: bytes) -> Header:
    """The header, by E1 to E8 ("Refusals of the reader")."""
    if data[:4] != b"\x7fELF":
        raise Refused("E1: magic")
    if len(data) < 64:
        raise Refused("E8: header")
    h = Header(*HEADER.unpack_from(data))
    if h.form != 2:
        raise Refused(f"E2: class {h.form}")
    if h.encoding != 1:
        raise Refused(f"E3: encoding {h.encoding}")
    if h.ident_version != 1 or h.version != 1:
        raise Refused(f"E4: version {h.ident_version if h.ident_version != 1 else h.version}")
    if h.type != 2:
        raise Refused(f"E5: type {h.type}")
    if h.machine != 243:
        raise Refused(f"E6: machine {h.machine}")
    if (h.ehsize != 64 or h.phnum > 0 and h.phentsize != 56 or h.shnum > 0 and h.shentsize != 64 or h.phnum == 0xFFFF
            or h.shnum == 0 and h.shoff != 0 or h.shnum > 0 and h.shstrndx >= h.shnum):
        raise Refused("E7: header shape")
    if h.phnum > 0 and h.phoff + 56 * h.phnum > len(data):
        raise Refused("E8: program table")
    if h.shnum > 0 and h.shoff + 64 * h.shnum > len(data):
        raise Refused("E8: section table")
    return h


def _tables(data: bytes, header: Header) -> File:
    """The segments and the sections without their names, by E8 ("Refusals of the reader")."""
    file = File(header.entry, header.flags)
    for number in range(header.phnum):
        kind, flags, offset, vaddr, _, filesz, memsz, _ = PROGRAM_HEADER.unpack_from(data, header.phoff + 56 * number)
        file.segments.append(Segment(kind, flags, offset, vaddr, filesz, memsz))
    for number in range(header.shnum):
        *fields, _, entsize = SECTION_HEADER.unpack_from(data, header.shoff + 64 * number)
        file.sections.append(Section(*fields, entsize))
    for number, segment in enumerate(file.segments):
        if segment.is_load and segment.filesz > 0 and segment.offset + segment.filesz > len(data):
            raise Refused(f"E8: segment {number}")
    for number, section in enumerate(file.sections):
        if section.has_bytes and section.offset + section.size > len(data):
            raise Refused(f"E8: section {number}")
    return file


def first_sharing(ranges: List[Tuple[int, int]]) -> Optional[Tuple[int, int]]:
    """The first of the ranges that shares a number with another one, and the first later one that it shares one with.

    The first that shares one with any other shares it with a later one, so a sort finds it.
    """
    order = sorted((low, high, number) for number, (low, high) in enumerate(ranges) if low < high)
    sharing, reach = set(), None
    for low, high, number in order:
        if reach is not None and low < reach[0]:
            sharing.update((number, reach[1]))
        if reach is None or high > reach[0]:
            reach = (high, number)
    if not sharing:
        return None
    first = min(sharing)
    low, high = ranges[first]
    return first, next(number for number, (other_low, other_high) in enumerate(ranges)
                       if number > first and max(low, other_low) < min(high, other_high))


def _check_segments(file: File) -> None:
    """E9 and E10 ("Refusals of the reader")."""
    for number, segment in enumerate(file.segments):
        if segment.is_load and (segment.filesz > segment.memsz or segment.end > 1 << 64):
            raise Refused(f"E9: segment {number}")
    pair = first_sharing([(s.vaddr, s.end) if s.is_load else (0, 0) for s in file.segments])
    if pair:
        raise Refused(f"E10: segments {pair[0]} and {pair[1]}")


def _bytes_of(data: bytes, section: Section) -> bytes:
    """The bytes of a section in the file ("A section header: 64 bytes")."""
    return data[section.offset:section.offset + section.size] if section.has_bytes else b""


def _check_sections(data: bytes, sections: List[Section], shstrndx: int) -> bytes:
    """E11, and the table of the names of sections ("Refusals of the reader")."""
    has_table = bool(sections) and shstrndx != 0 and sections[shstrndx].type == SHT_STRTAB
    table = _bytes_of(data, sections[shstrndx]) if has_table else b""
    last_zero = table.rfind(b"\0")
    for number, section in enumerate(sections):
        if (section.flags & SHF_ALLOC and section.addr + section.size > 1 << 64
                or number == shstrndx != 0 and section.type != SHT_STRTAB
                or has_table and section.name_offset != 0 and section.name_offset > last_zero):
            raise Refused(f"E11: section {number}")
    return table


def _symbols(data: bytes, file: File) -> Tuple[List[tuple], bytes]:
    """The fields of the symbols and the table of their names, by E12 ("A symbol: 24 bytes")."""
    section = next((s for s in file.sections if s.type == SHT_SYMTAB), None)
    if section is None:
        return [], b""
    if (section.entsize != 24 or section.size % 24 != 0 or section.link >= len(file.sections)
            or file.sections[section.link].type != SHT_STRTAB):
        raise Refused("E12: symbol 0")
    table = _bytes_of(data, file.sections[section.link])
    last_zero = table.rfind(b"\0")
    symbols = list(SYMBOL.iter_unpack(_bytes_of(data, section)))
    for number, (name, *_) in enumerate(symbols):
        if number > 0 and name != 0 and name > last_zero:
            raise Refused(f"E12: symbol {number}")
    return symbols, table


def _relocations(data: bytes, file: File, symbols: int) -> List[Relocation]:
    """The entries of all counted sections, by E13 ("A RELA entry: 24 bytes")."""
    table = next((number for number, s in enumerate(file.sections) if s.type == SHT_SYMTAB), None)
    relocations = []
    for number, section in enumerate(file.sections):
        if (section.type != SHT_RELA or section.info >= len(file.sections) or section.link != table
                or not file.sections[section.info].flags & SHF_ALLOC):
            continue
        if section.entsize != 24 or section.size % 24 != 0:
            raise Refused(f"E13: section {number}, entry 0")
        for entry, (offset, info, addend) in enumerate(RELA.iter_unpack(_bytes_of(data, section))):
            if info >> 32 >= symbols:
                raise Refused(f"E13: section {number}, entry {entry}")
            relocations.append(Relocation(offset, info & 0xFFFFFFFF, info >> 32, addend))
    return relocations


def _name_ends(table: bytes, offsets: Iterable[int]) -> Dict[int, int]:
    """Where the names at these offsets end ("A name reaches up to the first zero byte")."""
    ends, end = {}, -1
    for offset in sorted(set(offsets)):
        if offset > end:
            end = table.find(b"\0", offset)
        ends[offset] = end
    return ends


def read_elf(data: bytes) -> File:
    """The file that the bytes are, by E1 to E13, L5 and L10 ("Refusals of the reader", "Limits")."""
    header = _header(data)
    file = _tables(data, header)
    _check_segments(file)
    section_names = _check_sections(data, file.sections, header.shstrndx)
    symbols, symbol_names = _symbols(data, file)
    file.relocations = _relocations(data, file, len(symbols))
    if len(file.sections) > MOST_SECTIONS:
        raise Exceeded("L5", len(file.sections), MOST_SECTIONS)

    section_offsets = [s.name_offset if section_names else 0 for s in file.sections]
    symbol_offsets = [fields[0] if number > 0 else 0 for number, fields in enumerate(symbols)]
    section_ends = {0: 0, **_name_ends(section_names, (offset for offset in section_offsets if offset))}
    symbol_ends = {0: 0, **_name_ends(symbol_names, (offset for offset in symbol_offsets if offset))}
    counted = (sum(s.filesz for s in file.segments if s.is_load)
               + sum(section_ends[offset] - offset for offset in section_offsets)
               + sum(symbol_ends[offset] - offset for offset in symbol_offsets))
    if counted > MOST_COUNTED_BYTES:
        raise Exceeded("L10", min(counted, (1 << 64) - 1), MOST_COUNTED_BYTES)

    for segment in file.segments:
        if segment.is_load:
            segment.data = data[segment.offset:segment.offset + segment.filesz]
    for section, offset in zip(file.sections, section_offsets):
        section.name = section_names[offset:section_ends[offset]]
    names = {offset: symbol_names[offset:end] for offset, end in symbol_ends.items()}
    for offset, (_, info, other, shndx, value, size) in zip(symbol_offsets, symbols):
        file.symbols.append(Symbol(names[offset], info & 15, info >> 4, other, shndx, value, size))
    return file
