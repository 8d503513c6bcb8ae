"""What a person is told of a call (docs/FORMATS.md, "Standard error")."""

from __future__ import annotations

import re
from dataclasses import replace
from typing import List, Optional, Tuple

import isa
from admission import admit, blocks
from calls import MOST_FILE, Shelf, answer, fired_line, near_text, told
from elf import File, read_elf
from machine import Memory, loads_of
from texts import MOST_OF_FILE_NAME, Stopped, encoded, printable
from weave import SIGNATURE, SPARE, T, Role, bounds
from words import COMMANDS, OTHER_NAMES, Order, change_of, order_of

LAST_ORIGINAL, PAIRS = 13, {0, *range(17, 30)}
ABOVE_X13 = "a4 a5 a6 a7 s2 s3 s4 s5 s6 s7 s8 s9 s10 s11 t3 t4 t5 t6".split()
SENTENCES = dict(line.split(" = ", 1) for line in told("sentences").splitlines())


def _edits(first: str, second: str) -> int:
    """How many letters have to be changed, put in or left out."""
    row = list(range(len(second) + 1))
    for number, letter in enumerate(first, 1):
        above, row = row, [number]
        for place, other in enumerate(second):
            row.append(min(above[place] + (letter != other), above[place + 1] + 1, row[place] + 1))
    return row[-1]


def _near(word: str, names: List[str]) -> Optional[str]:
    """The first of the nearest names, where one is near."""
    close = [name for name in names if 2 * _edits(word, name) < len(name)]
    return min(close, key=lambda name: _edits(word, name), default=None)


def _lines(command: str) -> List[str]:
    """The lines about the options of a command."""
    pages = (["transform"] if command in ("plan", "explain", "campaign") else []) + [command]
    return [line for page in pages for line in told(page).splitlines() if line.startswith("--")]


def _name(line: str) -> str:
    """The option that a line is about."""
    return line[2:].split(" ")[0]


def _value(words: List[str], name: str) -> Optional[Tuple[int, str]]:
    """The number of the word with the value of an option that is at fault, and the value."""
    for place, word in enumerate(words):
        found = None
        if word == f"--{name}" and place + 1 < len(words):
            found = place + 1, words[place + 1]
        elif word.startswith(f"--{name}="):
            found = place, word.split("=", 1)[1]
        if found and (name != "fault" or found[1].startswith("-") or not change_of(found[1])):
            return found
    return None


def _file(name: str) -> str:
    """The name of a file as it is printed."""
    return printable(encoded(name), MOST_OF_FILE_NAME)


def _usage(words: List[str], reason: str) -> str:
    """Where the words ask for nothing."""
    head, _, tail = reason.rpartition(" ")
    if head not in SENTENCES:
        head, tail = reason, ""
    steps = f" {tail}" if head == "few steps" else ""
    tail = {"all entries": "entries", "few steps": "every", "slip and reached": "slip"}.get(head, tail)
    called = OTHER_NAMES.get(words[0], words[0]) if words else ""
    command = called if called in COMMANDS else None
    if head == "unknown command":
        place = 1 if command == "help" and len(words) > 1 else 0
        fault = place, words[place]
    elif tail.isdigit():
        fault = int(tail), words[int(tail)]
    else:
        fault = _value(words, tail) if tail else None
    text = SENTENCES.get(reason, SENTENCES[head]) + steps
    if fault:
        text = f"'{printable(encoded(fault[1]))}', word {fault[0]}: {text}"
    elif head == "missing option":
        text = f"--{tail}: {text}"
    near = None
    if head == "unknown command":
        near = _near(fault[1], [line[4:].split(" ")[0] for line in told("help").splitlines() if line.startswith("qed ")])
    elif head == "unknown option at" and command:
        name = _near(fault[1].split("=")[0].lstrip("-"), [_name(line) for line in _lines(command)])
        near = f"--{name}" if name else None
    text = f"qed: {text}: did you mean {near}?\n" if near else f"qed: {text}\n"
    if command in (None, "help", "version"):
        return text + "qed help tells all commands\n"
    text += "".join(line + "\n" for line in _lines(command) if _name(line) == tail)
    page = told(command)
    return text + (page if fault and fault[1] in ("--help", "-h") else page.split("\n")[0] + "\n")


def _place(file: File, address: int) -> str:
    """The line about an address."""
    near = near_text(file, address)
    text = f"at 0x{address:x}, {near}" if near else f"at 0x{address:x}"
    word = Memory(loads_of(file)).load(address, 4)
    return text if word is None else f"{text}: {isa.text_of(word)}"


def _named(order: Order) -> List[str]:
    """The files that an order reads."""
    return [] if order.command in ("gen", "help", "version") else order.files if order.command == "harts" else order.files[:1]


def _read(shelf: Shelf, name: str) -> Optional[File]:
    """A file, where it can be read."""
    try:
        data = shelf.load(name, MOST_FILE + 1)
        return read_elf(data) if len(data) <= MOST_FILE else None
    except (OSError, Stopped):
        return None


def _largest(file: File) -> str:
    """The line about the largest section."""
    section = max(file.sections, key=lambda section: section.size, default=None)
    if section is None or section.size == 0:
        return ""
    return f"the largest section is {printable(section.name)} with {section.size} bytes\n"


def _refused(order: Order, line: str, shelf: Shelf) -> str:
    """Where a file is refused, or a limit exceeded."""
    sentence = SENTENCES.get(line, SENTENCES.get(line.split(":")[0], ""))
    found = line.split(": ", 1)[1]
    if len(_named(order)) != 1:
        return f"qed: {sentence} ({found})\n"
    name = order.files[0]
    text = f"qed: {_file(name)}: {sentence} ({found})\n"
    address = re.search("address 0x([0-9a-f]{16})", line)
    file = _read(shelf, name)
    if file and address and not line.startswith("N"):
        text += _place(file, int(address[1], 16))
        register = re.search("register ([0-9]+)$", line)
        text += f", and x{register[1]} is {ABOVE_X13[int(register[1]) - 14]}\n" if register else "\n"
    elif file and line.startswith("L"):
        text += _largest(file)
    number = re.search("line ([0-9]+)$", line)
    if number:
        text += printable(shelf.load(name, MOST_FILE).split(b"\n")[int(number[1]) - 1].strip(b" \t")) + "\n"
    return text


def _unread(order: Order, shelf: Shelf) -> str:
    """The first file that cannot be read."""
    for name in _named(order):
        try:
            shelf.load(name, 1)
        except OSError:
            return f"qed: {_file(name)} could not be read\n"
    return ""


def _before(memory: Memory, address: int, far: int) -> Optional[isa.Instruction]:
    """The instruction that stands so many bytes before an address."""
    word = memory.load((address - far) % 2**64, 4)
    return None if word is None else isa.decode(word)


def _found(memory: Memory, ebreak: int, first: int, second: int) -> Optional[str]:
    """The line of a check of an output, by its registers and the words before it; None where a word of these is missing."""
    near, third, tenth = (_before(memory, ebreak, far) for far in (8, 12, 40))
    if {first, second} <= PAIRS:
        return fired_line(Role("leave"))
    if near is None:
        return None
    if (first, second) == (SIGNATURE, T):
        if near.name != "addi":
            return fired_line(Role("leave" if near.name == "andi" else "check"))
        return None if third is None else fired_line(Role("entry", ((ebreak - 12 + third.imm + near.imm) % 2**64,)))
    if (first, second) == (T, SPARE):
        if near.name != "lui":
            return fired_line(Role("visit"))
        return None if tenth is None else fired_line(Role("look-up" if tenth.rs1 == SIGNATURE else "leave"))
    if first <= LAST_ORIGINAL and second == SPARE:
        return fired_line(Role("guard", (), first))
    return f"fired: x{first} and x{second} differ\n"


def _fired(file: File, ebreak: int, printed: str) -> str:
    """What differed where a check fired, by the registers, the comparison before the EBREAK, and the words before that."""
    memory = Memory(loads_of(file))
    check = _before(memory, ebreak, 4)
    is_output = any(section.name == b".qed.map" for section in file.sections)
    if check is None or check.group != "branch":
        return ""
    first, second = check.rs1, check.rs2
    if check.name != "beq" and not (is_output and {first, second} <= PAIRS):
        return ""
    values = [0] + [int(value, 16) for value in re.findall(r"^x\d+ (0x[0-9a-f]{16})$", printed, re.MULTILINE)]
    if isa.TAKEN[check.name](values[first], values[second]):
        found = "are equal at the ebreak behind their check" if check.name == "beq" else "pass the check before the ebreak"
        return f"qed: x{first} and x{second} {found}: a jump may have led there\n"
    if not is_output:
        return f"qed: a check fired: x{first} and x{second} differ\n"
    found = _found(memory, ebreak, first, second)
    return "" if found is None else f"qed: a check {found}"


def _run(order: Order, printed: str, shelf: Shelf) -> str:
    """How a run ended, and the faults that were not made."""
    line = printed.split("\n")[0]
    file = read_elf(shelf.load(order.files[0], MOST_FILE))
    kind, cause = line.split(" ")[:2]
    sentence = SENTENCES.get(kind, SENTENCES.get(cause))
    text = f"qed: {sentence}\n{_place(file, int(line[-16:], 16))}\n" if sentence else ""
    if kind == "fired":
        text = _fired(file, int(line[-16:], 16), printed)
    made = int(re.search(" after ([0-9]+) ", line)[1]) + (kind == "going")
    memory = Memory(loads_of(file))
    for change in sorted(order.values.get("fault", []), key=lambda change: change.step):
        if change.step >= made:
            text += f"qed: the fault after step {change.step} was not made\n"
        elif isinstance(change.place, int) and any(memory.load(change.place + i, 1) is None for i in range(8)):
            text += f"qed: the fault at 0x{change.place:x} was not made whole: nothing is mapped there\n"
    return text


def _times(number: int, part: int) -> str:
    """How many times a number has another, to tenths, rounded up."""
    tenths = -(-10 * number // part)
    return f"{tenths // 10}.{tenths % 10}"


def _growth(order: Order, line: str, shelf: Shelf) -> str:
    """How much longer an output is than its test."""
    options = order.options()
    test = admit(_read(shelf, order.files[0]), options)
    text = f"qed: the code is {_times(int(line.split(' ')[1]), 4 * len(test.code))} times that of the test"
    lengths = [length for block in blocks(test, options) for length in block.pieces if length]
    if not lengths or options.lean is not None:
        return f"{text}\n"
    low, high = (_times(bounds(test.data_words, len(test.data), replace(options, inst_max=length), False).piece, length)
                 for length in (max(lengths), min(lengths)))
    return f"{text}, and a piece makes at most {low} to {high} steps for each instruction\n"


def advice(words: List[str], shelf: Shelf) -> str:
    """What a person is told of a call on a terminal, but for the machine's reasons."""
    status, printed = answer(words, shelf)
    line = printed.split("\n")[0]
    if status == 2:
        return _usage(words, line[len("usage: "):])
    order = order_of(words)
    if status in (3, 4):
        return _refused(order, line.split(" ", 1)[1], shelf)
    if status == 5:
        return _unread(order, shelf)
    if order.command == "transform":
        if order.files[0] == order.files[1]:
            return f"qed: {_file(order.files[0])} is the output now, and the test is gone\n"
        return _growth(order, line, shelf)
    return _run(order, printed, shelf) if order.command == "run" else ""
