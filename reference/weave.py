"""The new code, its form, its places, its bounds, and what its words are for (docs/PROFILE.md, "Code sequences", "Bounds";
FORMATS.md, "Roles")."""

from __future__ import annotations

import re
from collections import Counter
from dataclasses import dataclass
from functools import lru_cache
from itertools import accumulate, chain
from typing import Dict, Iterable, List, NamedTuple, Optional, Tuple, Union

import isa
from admission import Block, DataRange, MOST_NEW_CODE, Options, Test
from assembler import words_of
from isa import Instruction, encode
from machine import WORD
from texts import Exceeded, hex16

MOST_NEAR_CODE = 1 << 20
DISTANCE, CURSOR, SIGNATURE, T, SPARE = 14, 15, 16, 30, 31


class Const(NamedTuple):
    """Const(rd, c) ("Code sequences")."""
    rd: int
    value: int


class Go(NamedTuple):
    """Go(a) ("Code sequences")."""
    address: int


# A number is a finished word.
Item = Union[int, Const, Go]


class Role(NamedTuple):
    """What words are for: a name, the register that is compared, and the input addresses or else the place that are told ("Roles")."""
    name: str
    addresses: Tuple[int, ...] = ()
    register: Optional[int] = None
    place: str = ""

    def text(self) -> str:
        """The role in a line."""
        register = "" if self.register is None else f" x{self.register}"
        place = "..".join(map(hex16, self.addresses)) or self.place
        return f"{self.name}{register} {place}".rstrip()


# Items that are for one thing; those behind a piece, which every piece has, are for several.
Part = Tuple[Role, List[Item]]
CHECKS = "checks"


def items_of(parts: List[Part]) -> List[Item]:
    """The items of parts."""
    return [*chain.from_iterable(items for _, items in parts)]


def pair(register: int) -> int:
    """The pair of a register ("Registers")."""
    return register + 16 if register else 0


# The parts of an instruction

def guard(register: int) -> List[Item]:
    """Guard(r) ("Code sequences")."""
    return [*words_of(f"beq x{register}, x{pair(register)}, 8; ebreak")] if register else []


def guards(name: str, addresses: Tuple[int, ...], registers: Iterable[int], place: str = "") -> List[Part]:
    """The guards of registers, one where they are the same."""
    return [(Role(name, addresses, register, place), guard(register)) for register in dict.fromkeys(registers)]


def original_part(i: Instruction, address: int) -> List[Part]:
    """The original part of an instruction ("The parts of an instruction")."""
    role = Role("original", (address,))
    if i.name == "auipc":
        return [(role, [Const(i.rd, address + i.imm & WORD)])]
    used = (i.rs1,) if i.group == "load" else (i.rs1, i.rs2) if i.group == "store" else ()
    return guards("guard", (address,), used) + [(role, [encode(i)])]


def mirror_part(i: Instruction, address: int, diverse: bool) -> List[Item]:
    """The mirror part of an instruction ("The parts of an instruction")."""
    on_pairs = Instruction(i.name, pair(i.rd), pair(i.rs1), pair(i.rs2), i.imm)
    if i.name == "auipc":
        return [Const(on_pairs.rd, address + i.imm & WORD)]
    if i.name == "fence":
        return []
    if i.group in ("load", "store"):
        return [*words_of(f"add x30, x{on_pairs.rs1}, x14"), encode(on_pairs._replace(rs1=T))]
    return [*other_form(i)] if diverse and i.name in OTHER_FORMS else [encode(on_pairs)]


def _other_forms() -> Dict[str, str]:
    """The table of other mirror parts, in its letters ("Other mirror parts")."""
    forms = {
        "addi": "xori t,x0,i; add d,a,t",
        "addiw": "addi t,a,i; addw d,t,x0",
        "add": "sub t,x0,b; sub d,a,t",
        "sub": "xori t,b,-1; add t,t,a; addi d,t,1",
        "addw": "add t,a,b; addiw d,t,0",
        "subw": "sub t,a,b; addiw d,t,0",
        "mulw": "mul t,a,b; addiw d,t,0",
        "xor": "or t,a,b; and u,a,b; sub d,t,u",
        "or": "xor t,a,b; and u,a,b; add d,t,u",
        "and": "or t,a,b; xor u,a,b; xor d,t,u",
        "slt": "addi t,x0,-1; slli t,t,63; xor u,a,t; xor t,b,t; sltu d,u,t",
        "sltu": "addi t,x0,-1; slli t,t,63; xor u,a,t; xor t,b,t; slt d,u,t",
        "sra": "srai u,a,63; xor t,a,u; srl t,t,b; xor d,t,u",
        "sllw": "andi t,b,31; sll t,a,t; addiw d,t,0",
        "srlw": "andi u,b,31; slli t,a,32; srli t,t,32; srl t,t,u; addiw d,t,0",
        "sraw": "andi u,b,31; addiw t,a,0; sra d,t,u",
        "lui": "addi t,x0,q; slli t,t,10; addi t,t,r; slli d,t,12",
        "mulh": "mulhu t,a,b; srai u,a,63; and u,u,b; sub t,t,u; srai u,b,63; and u,u,a; sub d,t,u",
        "mulhu": "mulh t,a,b; srai u,a,63; and u,u,b; add t,t,u; srai u,b,63; and u,u,a; add d,t,u",
        "mulhsu": "mulhu t,a,b; srai u,a,63; and u,u,b; sub d,t,u",
        "rem": "div t,a,b; mul t,t,b; sub d,a,t",
        "remu": "divu t,a,b; mul t,t,b; sub d,a,t",
        "remw": "divw t,a,b; mulw t,t,b; subw d,a,t",
        "remuw": "divuw t,a,b; mulw t,t,b; subw d,a,t",
        "divw": "addiw t,a,0; addiw u,b,0; div t,t,u; addiw d,t,0",
        "divuw": "slli t,a,32; srli t,t,32; slli u,b,32; srli u,u,32; divu t,t,u; addiw d,t,0",
    }
    for name in "slti sltiu xori ori andi slli srli srai slliw srliw sraiw".split():
        forms[name] = f"addi t,x0,i; {isa.ON_REGISTERS[name]} d,a,t"
    return forms


OTHER_FORMS = _other_forms()


@lru_cache(maxsize=1 << 16)
def other_form(i: Instruction) -> Tuple[int, ...]:
    """The mirror part of an instruction with the option `diverse` ("Other mirror parts")."""
    q, r = divmod(i.imm >> 12, 1024)
    letters = {"t": "x30", "u": "x31", "d": f"x{pair(i.rd)}", "a": f"x{pair(i.rs1)}", "b": f"x{pair(i.rs2)}",
               "i": str(i.imm), "q": str(q), "r": str(r)}
    return words_of(re.sub(r"\b[tudabiqr]\b", lambda letter: letters[letter.group()], OTHER_FORMS[i.name]))


# Comparisons

def compare(addresses: Tuple[int, ...], place: str = "") -> List[Part]:
    """Compare, behind the piece from one address to another, or at a place ("Code sequences")."""
    return guards("compare", addresses, range(1, 14), place)


COMPARE_WORD: List[Item] = [*words_of("ld x30, 0(x15); add x31, x15, x14; ld x31, 0(x31); beq x30, x31, 8; ebreak; "
                                      "addi x15, x15, 8")]


def visit(data: List[DataRange], times: int) -> List[Item]:
    """Visit ("Code sequences")."""
    if not data:
        return []
    word = list(COMPARE_WORD)
    for number, part in enumerate(data):
        following = data[(number + 1) % len(data)]
        word += [Const(T, part.end), *words_of("bne x15, x30, 12"), Const(CURSOR, following.start)]
    return word * times


def sweep(data: List[DataRange]) -> List[Item]:
    """Sweep ("Code sequences")."""
    items: List[Item] = []
    for part in data:
        items += [Const(CURSOR, part.start), *COMPARE_WORD, Const(T, part.end), *words_of("bne x15, x30, -32")]
    return items


# Entries

class Weave:
    """The new code of a test in one of its forms."""

    def __init__(self, test: Test, options: Options, far: bool) -> None:
        self.test, self.diverse, self.far = test, options.diverse, far
        self.visited = visit(test.data, options.round)
        self.checks = items_of(compare(())) + self.visited
        self.end = [(Role("sweep"), sweep(test.data)), *compare((), "end")] if options.sweep else []

    def leave(self, block: Block) -> List[Part]:
        """The leave of a block ("Pieces, entries, the whole code")."""
        end, at = block.end, block.end_address
        role = Role("leave", (at,))
        if end is None:
            return [(role, [Const(SIGNATURE, at), Go(at)])]
        if end.name == "zero":
            return [(role, [0])]
        if end.name == "ecall":
            return self.end + [(role, [*words_of("ecall")])]
        link: List[Item] = [Const(end.rd, at + 4), Const(pair(end.rd), at + 4)] if end.rd else []
        target = at + end.imm & WORD
        if end.name == "jal":
            return [(role, link + [Const(SIGNATURE, target), Go(target)])]
        if end.name == "jalr":
            return [(role, [*words_of(f"addi x16, x{pair(end.rs1)}, {end.imm}; andi x16, x16, -2")]),
                    *guards("leave guard", (at,), (end.rs1,)),
                    (role, [*words_of(f"addi x30, x{end.rs1}, {end.imm}; andi x30, x30, -2"), *link,
                            *words_of("add x31, x30, x14; add x31, x31, x14; lw x30, 0(x31); add x30, x30, x31; "
                                      "jalr x0, 0(x30)")])]
        return [(role, [*words_of(f"{end.name} x{pair(end.rs1)}, x{pair(end.rs2)}, 16"), Const(SIGNATURE, at + 4),
                        *words_of("jal x0, 12"), Const(SIGNATURE, target)]),
                *guards("leave guard", (at,), (end.rs1, end.rs2)),
                (role, [*words_of(f"{end.name} x{end.rs1}, x{end.rs2}, {12 if self.far else 8}"),
                        Go(at + 4), Go(target)])]

    def entry(self, block: Block) -> List[Part]:
        """The entry of a block ("Pieces, entries, the whole code")."""
        parts: List[Part] = [(Role("entry", (block.start,)),
                              [Const(T, block.start), *words_of("beq x16, x30, 8; ebreak")])]
        first = 0
        for length in block.pieces:
            piece = [(block.start + 4 * k, block.body[k]) for k in range(first, first + length)]
            span = block.start + 4 * first, block.start + 4 * (first + max(length, 1) - 1)
            first += length
            for address, i in piece:
                parts += original_part(i, address)
            parts += [(Role("mirror", (address,)), mirror_part(i, address, self.diverse)) for address, i in piece]
            parts.append((Role(CHECKS, span), self.checks))
        return parts + self.leave(block)

    def prologue(self) -> List[Part]:
        """The prologue ("Pieces, entries, the whole code")."""
        items = [word for r in (*range(1, 14), *range(17, 30)) for word in words_of(f"addi x{r}, x0, 0")]
        items.append(encode(Instruction("lui", 14, imm=self.test.distance)))
        if self.test.data:
            items.append(Const(CURSOR, self.test.data[0].start))
        return [(Role("start"), items + [Const(SIGNATURE, self.test.file.entry), Go(self.test.file.entry)])]

    def parts(self, blocks: List[Block]) -> List[List[Item]]:
        """The new code but for the stub: the prologue and the entries ("Pieces, entries, the whole code")."""
        return [items_of(parts) for parts in (self.prologue(), *map(self.entry, blocks))]

    def roles(self, blocks: List[Block]) -> List[Role]:
        """What each word of the new code is for ("Roles")."""
        parts: List[Part] = []
        for role, items in chain(self.prologue(), *map(self.entry, blocks)):
            is_one = role.name != CHECKS
            parts += [(role, items)] if is_one else [*compare(role.addresses), (Role("visit", role.addresses), self.visited)]
        return [role for role, items in parts for _ in range(size_of(items, self.far) // 4)] + [Role("stub")]


# Places

def const_words(rd: int, value: int, at: int) -> List[int]:
    """The words of Const(rd, c) at an address ("Code sequences")."""
    distance = isa.signed(value - at)
    high = distance + 2048 >> 12
    return [encode(Instruction("auipc", rd, imm=high << 12)), encode(Instruction("addi", rd, rd, 0, distance - (high << 12)))]


def size_of(items: List[Item], far: bool) -> int:
    """How many bytes items have ("Code sequences")."""
    count = Counter(map(type, items))
    return 4 * (count[int] + 2 * count[Const] + (2 if far else 1) * count[Go])


def starts_of(parts: List[List[Item]], base: int, far: bool) -> List[int]:
    """Where each part begins, from an address on, and last where the stub does ("Code sequences")."""
    return list(accumulate((size_of(items, far) for items in parts), initial=base))


def linked(items: List[Item], base: int, entries: Dict[int, int], stub: int, far: bool) -> List[int]:
    """The words of items that stand from an address on ("Code sequences")."""
    words: List[int] = []
    for item in items:
        if type(item) is int:
            words.append(item)
            continue
        at = base + 4 * len(words)
        if type(item) is Const:
            words += const_words(item.rd, item.value, at)
            continue
        target = entries.get(item.address, stub)
        if far:
            high, low = const_words(T, target, at)
            words += [high, encode(Instruction("jalr", 0, T, 0, isa.decode(low).imm))]
        else:
            words.append(encode(Instruction("jal", 0, imm=target - at)))
    return words


@dataclass
class Bounds:
    """The bounds of an output, in steps ("Bounds")."""
    piece: int
    register: int
    word: Optional[int]
    start: int
    early_register: Optional[int] = None
    early_word: Optional[int] = None


def bounds(words: int, ranges: int, options: Options, far: bool) -> Bounds:
    """The bounds of so many data words in so many ranges ("Bounds")."""
    visited = 7 + 3 * (ranges if words else 1)
    piece = 30 + (8 if options.diverse else 5) * options.inst_max + visited * options.round
    start = (33 if far else 32) + (2 * ranges + 8 * words + 14 if options.sweep else 0)
    word = start + (-(-words // options.round) + 2) * piece if words else None
    return Bounds(piece, start + 2 * piece, word, start)


@dataclass
class Woven:
    """The new code of a test with its blocks, entries and bounds, whether it is far, and whether the output has a table
    ("Code sequences")."""
    words: List[int]
    blocks: List[Block]
    entries: Dict[int, int]
    bounds: Bounds
    far: bool
    has_table: bool


def weave(test: Test, options: Options, blocks: List[Block]) -> Woven:
    """The new code in the near form where it fits, else in the far form, by L4 ("Code sequences")."""
    parts = Weave(test, options, False).parts(blocks)
    starts = starts_of(parts, test.new_code, False)
    far = starts[-1] + 4 - test.new_code > MOST_NEAR_CODE
    if far:
        starts = starts_of(parts, test.new_code, True)
        if starts[-1] + 4 - test.new_code > MOST_NEW_CODE:
            raise Exceeded("L4", starts[-1] + 4 - test.new_code, MOST_NEW_CODE)
        parts = Weave(test, options, True).parts(blocks)
    entries = {block.start: start for block, start in zip(blocks, starts[1:])}
    words: List[int] = []
    for part, start in zip(parts, starts):
        words += linked(part, start, entries, starts[-1], far)
    has_table = any(block.end is not None and block.end.name == "jalr" for block in blocks)
    return Woven(words + [0], blocks, entries, bounds(test.data_words, len(test.data), options, far), far, has_table)
