"""Generated tests (docs/FORMATS.md, "Generated tests")."""

from __future__ import annotations

from typing import List

from assembler import words_of
from elf import STB_GLOBAL, STT_FUNC
from output import packed, plain_file
from pcg import random_words

CODE, TABLE, DATA = 0x10000, 0x80000, 0x90000
REGISTERS = [5, 6, 7, 10, 11, 12, 13]

MAIN = ("lui x2, 0x90; addi x8, x0, 3; lui x4, 0x80; addi x9, x0, {functions}; ld x5, 0(x4); jalr x1, 0(x5); "
        "addi x4, x4, 8; addi x9, x9, -1; bne x9, x0, -16; addi x8, x8, -1; bne x8, x0, -32; ecall")
BODY = ["add {rd}, {rs1}, {rs2}", "sub {rd}, {rs1}, {rs2}", "xor {rd}, {rs1}, {rs2}", "mul {rd}, {rs1}, {rs2}",
        "addi {rd}, {rs1}, {imm}", "divu {rd}, {rs1}, {rs2}", "ld {rd}, {offset}(x2)", "sd {rs2}, {offset}(x2)"]


def body_words(word: int) -> List[int]:
    """The body instruction of a random word (the last table)."""
    rd, rs1, rs2 = (f"x{REGISTERS[(word >> shift) % 7]}" for shift in (8, 16, 24))
    m = (word >> 32) % 256
    return list(words_of(BODY[word % 8].format(rd=rd, rs1=rs1, rs2=rs2, imm=m - 128, offset=8 * m)))


def code_of(seed: int, functions: int) -> List[int]:
    """The code words of a seed and so many functions."""
    words = list(words_of(MAIN.format(functions=functions)))
    stream = random_words(seed)
    for _ in range(functions):
        for _ in range(32):
            words += body_words(next(stream))
        words += words_of("jalr x0, 0(x1)")
    return words


def generate(seed: int, size: int) -> bytes:
    """The bytes of the test of a seed and a size."""
    functions = -(-size // 32)
    starts = [CODE + 48 + 132 * number for number in range(functions)]
    parts = [(b".text", 5, CODE, packed("I", code_of(seed, functions))), (b".rodata", 4, TABLE, packed("Q", starts)),
             (b".data", 6, DATA, packed("Q", range(256)))]
    symbols = [("main", STT_FUNC, STB_GLOBAL, CODE)]
    return plain_file(parts, symbols + [(f"f{number}", STT_FUNC, STB_GLOBAL, start) for number, start in enumerate(starts)])
