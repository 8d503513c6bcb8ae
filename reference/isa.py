"""Instructions: table, words, values and texts (docs/FORMATS.md, "The instruction table")."""

from __future__ import annotations

import re
from functools import lru_cache
from typing import Callable, Dict, List, NamedTuple, Optional, Tuple


class Format(NamedTuple):
    """A format with its mask, its fields, and of the immediate the range, the grain and the parts.

    A part of the immediate is its lowest bit in the word, how many bits it has, and where they stand in the immediate."""
    mask: int
    registers: str
    least: int = 0
    most: int = 0
    grain: int = 1
    parts: Tuple[Tuple[int, int, int], ...] = ()


# The table of the page ("Formats and fields").
FORMATS = {
    "R": Format(0xFE00707F, "rd rs1 rs2"),
    "I": Format(0x707F, "rd rs1", -2048, 2047, 1, ((20, 12, 0),)),
    "H": Format(0xFC00707F, "rd rs1", 0, 63, 1, ((20, 6, 0),)),
    "G": Format(0xFE00707F, "rd rs1", 0, 31, 1, ((20, 5, 0),)),
    "S": Format(0x707F, "rs1 rs2", -2048, 2047, 1, ((25, 7, 5), (7, 5, 0))),
    "B": Format(0x707F, "rs1 rs2", -4096, 4094, 2, ((31, 1, 12), (7, 1, 11), (25, 6, 5), (8, 4, 1))),
    "U": Format(0x7F, "rd", -(1 << 31), (1 << 31) - 4096, 4096, ((12, 20, 12),)),
    "J": Format(0x7F, "rd", -1048576, 1048574, 2, ((31, 1, 20), (12, 8, 12), (20, 1, 11), (21, 10, 1))),
    "N": Format(0xFFFFFFFF, ""),
}

# The rows of the page: the group, the format, and names with their matches ("Rows").
ROWS = [
    ("upper", "U", "lui 00000037 auipc 00000017"),
    ("jal", "J", "jal 0000006f"),
    ("jalr", "I", "jalr 00000067"),
    ("fence", "I", "fence 0000000f"),
    ("branch", "B", "beq 00000063 bne 00001063 blt 00004063 bge 00005063 bltu 00006063 bgeu 00007063"),
    ("load", "I", "lb 00000003 lh 00001003 lw 00002003 ld 00003003 lbu 00004003 lhu 00005003 lwu 00006003"),
    ("store", "S", "sb 00000023 sh 00001023 sw 00002023 sd 00003023"),
    ("immediate", "I", "addi 00000013 slti 00002013 sltiu 00003013 xori 00004013 ori 00006013 andi 00007013 "
                       "addiw 0000001b"),
    ("immediate", "H", "slli 00001013 srli 00005013 srai 40005013"),
    ("immediate", "G", "slliw 0000101b srliw 0000501b sraiw 4000501b"),
    ("register", "R", "add 00000033 sub 40000033 sll 00001033 slt 00002033 sltu 00003033 xor 00004033 srl 00005033 "
                      "sra 40005033 or 00006033 and 00007033"),
    ("register", "R", "addw 0000003b subw 4000003b sllw 0000103b srlw 0000503b sraw 4000503b"),
    ("register", "R", "mul 02000033 mulh 02001033 mulhsu 02002033 mulhu 02003033 div 02004033 divu 02005033 "
                      "rem 02006033 remu 02007033 mulw 0200003b divw 0200403b divuw 0200503b remw 0200603b "
                      "remuw 0200703b"),
    ("ecall", "N", "ecall 00000073"),
    ("ebreak", "N", "ebreak 00100073"),
    ("zero", "N", "zero 00000000"),
]

# The operands in a text, by the group or else the format ("Printed lines").
OPERANDS = {"load": "rd, imm(rs1)", "jalr": "rd, imm(rs1)", "R": "rd, rs1, rs2", "I": "rd, rs1, imm", "H": "rd, rs1, imm",
            "G": "rd, rs1, imm", "S": "rs2, imm(rs1)", "B": "rs1, rs2, imm", "U": "rd, imm", "J": "rd, imm", "N": ""}


class Kind(NamedTuple):
    """A row of the instruction table."""
    name: str
    group: str
    format: str
    match: int

    @property
    def operands(self) -> str:
        """Its operands in a text."""
        return OPERANDS.get(self.group, OPERANDS[self.format])


class Instruction(NamedTuple):
    """An instruction with its fields; a field that its format does not have is 0."""
    name: str
    rd: int = 0
    rs1: int = 0
    rs2: int = 0
    imm: int = 0

    @property
    def kind(self) -> Kind:
        """Its row of the table."""
        return KINDS[self.name]

    @property
    def group(self) -> str:
        """The group of its row."""
        return KINDS[self.name].group


KINDS = {name: Kind(name, group, form, int(match, 16)) for group, form, text in ROWS
         for name, match in zip(text.split()[::2], text.split()[1::2])}
BY_WORD = {(FORMATS[kind.format].mask, kind.match): kind for kind in KINDS.values()}
MASKS = sorted({form.mask for form in FORMATS.values()})

ZERO = Instruction("zero")
ECALL = Instruction("ecall")
EBREAK = Instruction("ebreak")


def signed(number: int, bits: int = 64) -> int:
    """The low bits of a number read as signed ("Values")."""
    low = number & ((1 << bits) - 1)
    return low - (1 << bits) if low >> (bits - 1) else low


# Words

@lru_cache(maxsize=1 << 16)
def decode(word: int) -> Optional[Instruction]:
    """The instruction of a word, or None where the word is in no row ("The instruction table")."""
    kind = next((BY_WORD[mask, word & mask] for mask in MASKS if (mask, word & mask) in BY_WORD), None)
    if kind is None:
        return None
    form = FORMATS[kind.format]
    rd, rs1, rs2 = (word >> low & 31 if register in form.registers.split() else 0
                    for register, low in (("rd", 7), ("rs1", 15), ("rs2", 20)))
    imm = sum((word >> low & (1 << bits) - 1) << place for low, bits, place in form.parts)
    return Instruction(kind.name, rd, rs1, rs2, imm if imm <= form.most else imm + 2 * form.least)


def immediate_fits(form: Format, imm: int) -> bool:
    """Whether an immediate is in the range of a format and on its grain ("Formats and fields")."""
    return form.least <= imm <= form.most and imm % form.grain == 0


@lru_cache(maxsize=1 << 16)
def encode(instruction: Instruction) -> int:
    """The word of an instruction whose fields are in their ranges ("Formats and fields")."""
    name, rd, rs1, rs2, imm = instruction
    form = FORMATS[KINDS[name].format]
    if not immediate_fits(form, imm):
        raise ValueError(f"no word for {instruction}")
    word = KINDS[name].match | rd << 7 | rs1 << 15 | rs2 << 20
    for low, bits, place in form.parts:
        word |= (imm >> place & (1 << bits) - 1) << low
    return word


def text_of(word: int) -> str:
    """The text of a word ("Printed lines")."""
    i = decode(word)
    if i is None:
        return f"word 0x{word:08x}"
    imm = f"0x{i.imm >> 12 & 0xFFFFF:05x}" if i.kind.format == "U" else str(i.imm)
    shown = {"rd": f"x{i.rd}", "rs1": f"x{i.rs1}", "rs2": f"x{i.rs2}", "imm": imm}
    return f"{i.name} {re.sub('[a-z][a-z0-9]*', lambda field: shown[field.group()], i.kind.operands)}".strip()


# Registers

def writes(instruction: Instruction) -> List[int]:
    """The register that an instruction writes, x0 too ("Formats and fields"; a FENCE has none)."""
    return [instruction.rd] if instruction.kind.format in "RIHGUJ" and instruction.name != "fence" else []


def reads(instruction: Instruction) -> List[int]:
    """The registers that an instruction reads, in the order rs1, rs2 ("Formats and fields"; a FENCE has none)."""
    form = instruction.kind.format
    if instruction.name == "fence":
        return []
    return [instruction.rs1, instruction.rs2] if form in "RSB" else [instruction.rs1] if form in "IHG" else []


# Values

def _quotient(a: int, b: int) -> int:
    """The quotient of signed numbers, rounded towards zero, and -1 by zero ("Values")."""
    if b == 0:
        return -1
    return abs(a) // abs(b) * (1 if (a < 0) == (b < 0) else -1)


def _rest(a: int, b: int) -> int:
    """What a division of signed numbers leaves, and a by zero ("Values")."""
    return a if b == 0 else a - b * _quotient(a, b)


def _low(number: int) -> int:
    """The low 32 bits ("Values")."""
    return number & 0xFFFFFFFF


# Each result is taken modulo 2^64 by its user. Those of the second table are read as words first.
_WHOLE: Dict[str, Callable[[int, int], int]] = {
    "add": lambda a, b: a + b,
    "sub": lambda a, b: a - b,
    "slt": lambda a, b: int(signed(a) < signed(b)),
    "sltu": lambda a, b: int(a < b),
    "xor": lambda a, b: a ^ b,
    "or": lambda a, b: a | b,
    "and": lambda a, b: a & b,
    "sll": lambda a, b: a << (b & 63),
    "srl": lambda a, b: a >> (b & 63),
    "sra": lambda a, b: signed(a) >> (b & 63),
    "mul": lambda a, b: a * b,
    "mulh": lambda a, b: signed(a) * signed(b) >> 64,
    "mulhsu": lambda a, b: signed(a) * b >> 64,
    "mulhu": lambda a, b: a * b >> 64,
    "div": lambda a, b: _quotient(signed(a), signed(b)),
    "divu": _quotient,
    "rem": lambda a, b: _rest(signed(a), signed(b)),
    "remu": _rest,
}
_WORDS: Dict[str, Callable[[int, int], int]] = {
    "addw": lambda a, b: a + b,
    "subw": lambda a, b: a - b,
    "sllw": lambda a, b: a << (b & 31),
    "srlw": lambda a, b: _low(a) >> (b & 31),
    "sraw": lambda a, b: signed(a, 32) >> (b & 31),
    "mulw": lambda a, b: a * b,
    "divw": lambda a, b: _quotient(signed(a, 32), signed(b, 32)),
    "divuw": lambda a, b: _quotient(_low(a), _low(b)),
    "remw": lambda a, b: _rest(signed(a, 32), signed(b, 32)),
    "remuw": lambda a, b: _rest(_low(a), _low(b)),
}


def _as_word(value: Callable[[int, int], int]) -> Callable[[int, int], int]:
    """A value whose low 32 bits are read as signed ("Values", as a word)."""
    return lambda a, b: signed(value(a, b), 32)


VALUES = {**_WHOLE, **{name: _as_word(value) for name, value in _WORDS.items()}}

# The kind on registers that computes what a kind with an immediate computes.
ON_REGISTERS = {"addi": "add", "slti": "slt", "sltiu": "sltu", "xori": "xor", "ori": "or", "andi": "and",
                "addiw": "addw", "slli": "sll", "srli": "srl", "srai": "sra", "slliw": "sllw", "srliw": "srlw",
                "sraiw": "sraw"}
VALUES.update({name: VALUES[other] for name, other in ON_REGISTERS.items()})

TAKEN: Dict[str, Callable[[int, int], bool]] = {
    "beq": lambda a, b: a == b,
    "bne": lambda a, b: a != b,
    "blt": lambda a, b: signed(a) < signed(b),
    "bge": lambda a, b: signed(a) >= signed(b),
    "bltu": lambda a, b: a < b,
    "bgeu": lambda a, b: a >= b,
}

ACCESS_SIZES = {"lb": 1, "lh": 2, "lw": 4, "ld": 8, "lbu": 1, "lhu": 2, "lwu": 4, "sb": 1, "sh": 2, "sw": 4, "sd": 8}
