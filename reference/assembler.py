"""Texts that are assembled (docs/FORMATS.md, "Text for the assembler")."""

from __future__ import annotations

import re
from dataclasses import dataclass, field
from functools import lru_cache
from typing import Dict, List, Optional, Tuple

import isa
from texts import Refused, number_of

CODE, DATA = 0x10000, 0x20000
MOST_CODE_WORDS, MOST_DATA_WORDS = 16384, 131072
NAME = "[A-Za-z_][A-Za-z0-9_]*"
BLANKS = " \t"


class Fault(Exception):
    """A line is at fault with this rule."""


@dataclass
class Line:
    """A line by its first word: what stands behind that, and the address at which the next word stands."""
    first: str
    rest: str
    behind_data: bool
    address: int


@dataclass
class Assembled:
    """The words and labels of a text."""
    code: List[int] = field(default_factory=list)
    data: List[int] = field(default_factory=list)
    labels: Dict[str, int] = field(default_factory=dict)


def is_code(first: str) -> bool:
    """Whether a line with this first word gives a code word."""
    return first in isa.KINDS or first == "word"


def lines_of(text: str) -> List[Line]:
    """The lines with their addresses, which go by first words alone."""
    lines = []
    behind_data, code, data = False, 0, 0
    for raw in text.split("\n"):
        statement = raw.partition("#")[0].strip(BLANKS)
        first = re.match(r"[^ \t:]*:?", statement).group()
        rest = statement[len(first):].strip(BLANKS)
        behind_data = behind_data or first == ".data"
        lines.append(Line(first, rest, behind_data, DATA + 8 * data if behind_data else CODE + 4 * code))
        code += not behind_data and is_code(first)
        data += behind_data and first == ".word64"
    return lines


def label_of(line: Line) -> Optional[str]:
    """The label that a line defines, or None."""
    return line.first[:-1] if re.fullmatch(NAME + ":", line.first) else None


def _register(text: str) -> int:
    """The register that an operand names."""
    if not re.fullmatch("x([0-9]|[12][0-9]|3[01])", text):
        raise Fault("S2")
    return int(text[1:])


def _number(text: str) -> int:
    """The number of a text that may have a - in front."""
    number = number_of(text[1:] if text.startswith("-") else text)
    if number is None:
        raise Fault("S2")
    return -number if text.startswith("-") else number


def instruction_of(name: str, rest: str, address: int = 0, labels: Optional[Dict[str, int]] = None) -> isa.Instruction:
    """The instruction of a line, by S2, S3 and S4. Its operands have the form that `list` prints."""
    kind = isa.KINDS[name]
    forms = kind.operands.split(", ") if kind.operands else []
    parts = [part.strip(BLANKS) for part in rest.split(",")] if rest else []
    if len(parts) != len(forms):
        raise Fault("S2")
    texts = dict(zip(forms, parts))
    if "imm(rs1)" in texts:
        match = re.fullmatch(r"([^ \t(]*)[ \t]*\([ \t]*([^ \t)]*)[ \t]*\)", texts.pop("imm(rs1)"))
        if not match:
            raise Fault("S2")
        texts["imm"], texts["rs1"] = match.groups()
    imm = texts.pop("imm", "0")
    fields = {field: _register(text) for field, text in texts.items()}
    return isa.Instruction(name, imm=_immediate(kind.format, imm, address, labels or {}), **fields)


def _immediate(form: str, text: str, address: int, labels: Dict[str, int]) -> int:
    """The immediate of an operand, which of a branch or of JAL may be a label, by S2, S3 and S4."""
    if form in "BJ" and re.fullmatch(NAME, text):
        if text not in labels:
            raise Fault("S4")
        imm = labels[text] - address
    else:
        imm = _number(text)
    if form == "U":
        if not 0 <= imm < 1 << 20:
            raise Fault("S3")
        imm = isa.signed(imm << 12, 32)
    if not isa.immediate_fits(isa.FORMATS[form], imm):
        raise Fault("S3")
    return imm


@lru_cache(maxsize=1 << 16)
def words_of(text: str) -> Tuple[int, ...]:
    """The words of instructions without labels, with semicolons between them."""
    parts = [part.strip(BLANKS).partition(" ") for part in text.split(";")]
    return tuple(isa.encode(instruction_of(name, rest)) for name, _, rest in parts)


def code_word(line: Line, labels: Dict[str, int]) -> int:
    """The word of a line of code, by S2, S3 and S4."""
    if line.first == "word":
        if not re.fullmatch("0x[0-9a-fA-F]{8}", line.rest):
            raise Fault("S2")
        return int(line.rest, 16)
    return isa.encode(instruction_of(line.first, line.rest, line.address, labels))


def _add(line: Line, definitions: Dict[str, int], done: Assembled) -> None:
    """Adds what a line gives, by S1 to S6."""
    label = label_of(line)
    if line.first == "" or line.first == ".data" or label is not None:
        if line.rest:
            raise Fault("S2")
        if label in done.labels:
            raise Fault("S5")
        if label is not None:
            done.labels[label] = line.address
    elif is_code(line.first) and not line.behind_data:
        word = code_word(line, definitions)
        if len(done.code) == MOST_CODE_WORDS:
            raise Fault("S6")
        done.code.append(word)
    elif line.first == ".word64" and line.behind_data:
        number = number_of(line.rest)
        if number is None:
            raise Fault("S2")
        if len(done.data) == MOST_DATA_WORDS:
            raise Fault("S6")
        done.data.append(number)
    else:
        raise Fault("S1")


def assemble(text: str) -> Assembled:
    """The words and labels of a text, by S1 to S7."""
    lines = lines_of(text)
    definitions: Dict[str, int] = {}
    for line in lines:
        label = label_of(line)
        if label is not None:
            definitions.setdefault(label, line.address)
    done = Assembled()
    for number, line in enumerate(lines, 1):
        try:
            _add(line, definitions, done)
        except Fault as fault:
            raise Refused(f"{fault}: line {number}") from None
    if not done.code:
        raise Refused("S7: no instruction")
    return done
