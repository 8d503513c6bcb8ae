"""The output file, and files that are written (docs/FORMATS.md, "The output file")."""

from __future__ import annotations

import struct
from typing import Dict, Iterable, List, Tuple, Union

from admission import Test, round_up
from elf import (HEADER, PF_W, PF_X, PROGRAM_HEADER, PT_LOAD, SECTION_HEADER, SHF_ALLOC, SHF_EXECINSTR, SHF_WRITE,
                 SHT_PROGBITS, SHT_STRTAB, SHT_SYMTAB, STB_LOCAL, STT_FUNC, STT_NOTYPE, STT_OBJECT, SYMBOL, Segment,
                 Symbol)
from texts import Exceeded
from weave import Woven

SHN_ABS = 0xFFF1
MOST_SEGMENTS = 4000
MOST_BYTES = 512 << 20

# A section that is written has a name, and stands over a segment or has bytes of its own.
Written = Tuple[bytes, Union[Segment, bytes]]


def load_segment(flags: int, vaddr: int, data: bytes, memsz: int) -> Segment:
    """A PT_LOAD segment with its bytes ("Segments")."""
    return Segment(PT_LOAD, flags, 0, vaddr, len(data), memsz, data)


def packed(form: str, numbers: Iterable[int]) -> bytes:
    """Numbers in one of the forms of `struct`, the low byte first."""
    numbers = list(numbers)
    return struct.pack(f"<{len(numbers)}{form}", *numbers)


def _half(test: Test) -> List[Segment]:
    """The original half ("Segments")."""
    data_segments = {id(segment) for data in test.data for segment in data.segments}
    segments = [load_segment(s.flags & ~PF_X, s.vaddr, s.data, s.memsz) for s in test.image if id(s) not in data_segments]
    for data in test.data:
        joined = bytearray(max(s.vaddr + s.filesz - data.start if s.filesz else 0 for s in data.segments))
        for segment in data.segments:
            first = segment.vaddr - data.start
            joined[first:first + segment.filesz] = segment.data
        segments.append(load_segment(6 if data.is_written else 4, data.start, bytes(joined), data.end - data.start))
    return sorted(segments, key=lambda s: s.vaddr)


def _table(test: Test, entries: Dict[int, int]) -> Segment:
    """The table for jumps by register (PROFILE.md, "Memory")."""
    first, last = min(entries), max(entries)
    distances = [0] * ((last - first) // 4 + 1)
    for address, new_address in entries.items():
        distances[(address - first) // 4] = new_address - (address + 2 * test.distance)
    return load_segment(4, first + 2 * test.distance, packed("I", distances), 4 * len(distances))


def _symbols(test: Test, entries: Dict[int, int]) -> List[Symbol]:
    """The symbols of the output ("Symbols")."""
    kept = []
    for symbol in test.file.symbols:
        if symbol.name and symbol.shndx != 0 and symbol.type in (STT_NOTYPE, STT_OBJECT, STT_FUNC):
            value, size = symbol.value, symbol.size
            if symbol.type != STT_OBJECT and value in entries:
                value, size = entries[value], 0
            kept.append(Symbol(symbol.name, symbol.type, symbol.binding, symbol.other, SHN_ABS, value, size))
    return sorted(kept, key=lambda s: s.binding != STB_LOCAL)


def output_file(test: Test, woven: Woven) -> bytes:
    """The bytes of the output, by L8 and L9 ("The output file")."""
    half = _half(test)
    segments = half + [load_segment(s.flags, s.vaddr + test.distance, s.data, s.memsz) for s in half]
    code = load_segment(5, test.new_code, packed("I", woven.words), 4 * len(woven.words))
    sections: List[Written] = [(b".qed.text", code)]
    if woven.has_table:
        table = _table(test, woven.entries)
        segments.append(table)
        sections.append((b".qed.table", table))
    segments.append(code)
    rows = packed("Q", (number for row in sorted(woven.entries.items()) for number in row))
    sections.append((b".qed.map", rows))
    if len(segments) > MOST_SEGMENTS:
        raise Exceeded("L8", len(segments), MOST_SEGMENTS)
    return write_elf(test.new_code, test.file.flags, segments, sections, _symbols(test, woven.entries))


# Written files

def plain_file(parts: List[Tuple[bytes, int, int, bytes]], symbols: List[Tuple[str, int, int, int]]) -> bytes:
    """The bytes of a test that starts at its first part.

    A part is a segment with a section over it: name, flags, address, bytes. A symbol: name, type, binding, value."""
    segments = [load_segment(flags, address, data, len(data)) for _, flags, address, data in parts]
    sections = [(part[0], segment) for part, segment in zip(parts, segments)]
    return write_elf(segments[0].vaddr, 0, segments, sections,
                     [Symbol(name.encode(), kind, binding, 0, SHN_ABS, value, 0) for name, kind, binding, value in symbols])


def _names(names: List[bytes]) -> Tuple[bytes, List[int]]:
    """A zero byte, and each name with one; and where each name begins ("The order in the file")."""
    offsets, at = [], 1
    for name in names:
        offsets.append(at)
        at += len(name) + 1
    return b"\0" + b"".join(name + b"\0" for name in names), offsets


def write_elf(entry: int, flags: int, segments: List[Segment], sections: List[Written],
              symbols: List[Symbol]) -> bytes:
    """The bytes of a file, by L9 ("The order in the file" and "Sections")."""
    size, parts = 64 + 56 * len(segments), [b""]

    def add(part: bytes, at: int) -> int:
        """Adds a part of the file at an offset, and gives that."""
        nonlocal size
        parts.extend((bytes(at - size), part))
        size = at + len(part)
        return at

    offsets = [add(s.data, size + (s.vaddr - size) % 4096) for s in segments]
    places = {id(segment): offset for segment, offset in zip(segments, offsets)}
    headers = []
    for _, over in sections:
        if isinstance(over, Segment):
            leave = (SHF_EXECINSTR if over.flags & PF_X else 0) | (SHF_WRITE if over.flags & PF_W else 0)
            headers.append((SHT_PROGBITS, SHF_ALLOC | leave, over.vaddr, places[id(over)], over.memsz, 0, 0, 1, 0))
        else:
            headers.append((SHT_PROGBITS, 0, 0, add(over, size), len(over), 0, 0, 1, 0))

    strings, starts = _names([s.name for s in symbols])
    rows = [SYMBOL.pack(start, s.binding << 4 | s.type, s.other, s.shndx, s.value, s.size)
            for start, s in zip(starts, symbols)]
    table = bytes(24) + b"".join(rows)
    locals_and_null = 1 + sum(s.binding == STB_LOCAL for s in symbols)
    names, name_starts = _names([name for name, _ in sections] + [b".symtab", b".strtab", b".shstrtab"])
    headers += [(SHT_SYMTAB, 0, 0, add(table, round_up(size, 8)), len(table), len(sections) + 2, locals_and_null, 8, 24),
                (SHT_STRTAB, 0, 0, add(strings, size), len(strings), 0, 0, 1, 0),
                (SHT_STRTAB, 0, 0, add(names, size), len(names), 0, 0, 1, 0)]
    section_headers = [SECTION_HEADER.pack(start, *fields) for start, fields in zip(name_starts, headers)]
    at = add(bytes(64) + b"".join(section_headers), round_up(size, 8))
    if size > MOST_BYTES:
        raise Exceeded("L9", size, MOST_BYTES)
    count = len(headers) + 1
    parts[0] = HEADER.pack(b"\x7fELF", 2, 1, 1, 2, 243, 1, entry, 64, at, flags, 64, 56, len(segments), 64, count, count - 1)
    parts[0] += b"".join(PROGRAM_HEADER.pack(PT_LOAD, s.flags, offset, s.vaddr, s.vaddr, len(s.data), s.memsz, 4096)
                         for s, offset in zip(segments, offsets))
    return b"".join(parts)
