#!/usr/bin/env python3
"""Makes a copy of an output in which objdump and gdb show labels in the new code.

    scripts/labelled.py OUT COPY

In OUT all symbols are absolute, and so objdump names no line by them. In COPY those that stand in .qed.text belong to it,
and each entry of .qed.map has a symbol: that of the test where there is one, else at_HEX by its input address. The segments
are the same bytes in the same places, so COPY runs as OUT does. (objcopy --add-symbol drops the segments that no section
has, which are the test's halves.) Python's standard library alone.
"""

import argparse
import struct
import sys

SECTION = struct.Struct("<IIQQQQIIQQ")
SYMBOL = struct.Struct("<IBBHQQ")
ABSOLUTE, LOCAL, FUNCTION = 0xFFF1, 0, 2


def sections_of(data):
    """Where the section headers stand, and each: its name and its ten fields."""
    table, (count, names) = struct.unpack_from("<Q", data, 40)[0], struct.unpack_from("<HH", data, 60)
    headers = [list(SECTION.unpack_from(data, table + 64 * i)) for i in range(count)]
    return table, [(name_at(data, headers[names][4] + header[0]), header) for header in headers]


def name_at(data, at):
    """The name that begins at a place."""
    return data[at:data.index(0, at)].decode()


def symbols_of(data, symtab, strtab):
    """Each symbol but the null one: name, info, other, section, value, size."""
    fields = [SYMBOL.unpack_from(data, symtab[4] + 24 * i) for i in range(1, symtab[5] // 24)]
    return [[name_at(data, strtab[4] + field[0]), *field[1:]] for field in fields]


def labelled(data):
    """The bytes of the copy."""
    table, sections = sections_of(data)
    number = {name: i for i, (name, _) in enumerate(sections)}
    headers = [header for _, header in sections]
    text, rows = headers[number[".qed.text"]], headers[number[".qed.map"]]
    symtab, strtab = headers[number[".symtab"]], headers[number[".strtab"]]
    symbols = symbols_of(data, symtab, strtab)
    for symbol in symbols:
        if text[3] <= symbol[4] < text[3] + text[5] and symbol[3] == ABSOLUTE:
            symbol[3] = number[".qed.text"]
    named = {symbol[4] for symbol in symbols}
    for old, new in struct.iter_unpack("<QQ", data[rows[4]:rows[4] + rows[5]]):
        if new not in named:
            symbols.append([f"at_{old:x}", LOCAL << 4 | FUNCTION, 0, number[".qed.text"], new, 0])
    symbols.sort(key=lambda symbol: symbol[1] >> 4 != LOCAL)
    names, records = bytearray(1), bytearray(24)
    for name, info, other, section, value, size in symbols:
        records += SYMBOL.pack(len(names), info, other, section, value, size)
        names += name.encode() + b"\0"
    data = bytearray(data) + bytes(-len(data) % 8)
    symtab[4], symtab[5] = len(data), len(records)
    symtab[7] = 1 + sum(symbol[1] >> 4 == LOCAL for symbol in symbols)
    strtab[4], strtab[5] = len(data) + len(records), len(names)
    data += records + names
    for i, header in enumerate(headers):
        SECTION.pack_into(data, table + 64 * i, *header)
    return data


def main():
    """Reads OUT and stores COPY."""
    parser = argparse.ArgumentParser(usage=__doc__)
    parser.add_argument("out", metavar="OUT")
    parser.add_argument("copy", metavar="COPY")
    asked = parser.parse_args()
    try:
        with open(asked.out, "rb") as file:
            data = file.read()
        if data[:4] != b"\x7fELF" or ".qed.map" not in (name for name, _ in sections_of(data)[1]):
            raise ValueError
        copy = labelled(data)
        with open(asked.copy, "wb") as file:
            file.write(copy)
    except OSError as error:
        sys.exit(f"labelled.py: {error.filename}: {error.strerror}")
    except (ValueError, LookupError, OverflowError, struct.error):
        sys.exit(f"labelled.py: {asked.out} is not an output of `qed transform`")


main()
