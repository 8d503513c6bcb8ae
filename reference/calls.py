"""The calls of the program (docs/FORMATS.md, "Printed lines"; COMMANDS.md, "Exit codes")."""

from __future__ import annotations

import json
import os
import sys
from dataclasses import dataclass
from typing import Callable, Dict, List, Optional, Tuple

import isa
from admission import Options, Test, admit, blocks, reached
from assembler import CODE, DATA, assemble
from campaign import Aim, Course, slips_text, strikes_text
from elf import STB_LOCAL, STT_NOTYPE, File, first_sharing, read_elf
from generator import generate
from machine import (ENDED, FIRED, GOING, Hart, Memory, Watched, code_ranges, loads_of, run_changed, run_slipped, start,
                     start_watched)
from output import output_file, packed, plain_file
from texts import Exceeded, Refused, Stopped, encoded, hex16, number_or_none, printable
from lean import Lean, weave_lean
from weave import Role, Weave, Woven, pair, weave
from words import Order, order_of

MOST_INPUT = 64 << 20
MOST_FILE = 512 << 20
MOST_MEMORY = 256 << 20
DEFAULT_STEPS = 1000000
GENERATED_STEPS = 100000000
ENDED_STATUS, READ_FAULT, WRITE_FAULT, FIRED_STATUS, TRAPPED_STATUS, GOING_STATUS = 0, 5, 6, 10, 11, 12


class Shelf:
    """The machine's files; relative names go from a folder on. A fault is an OSError."""

    def __init__(self, folder: str) -> None:
        self.folder = folder

    def load(self, name: str, most: int) -> bytes:
        """The bytes of a file, or so many where it has more."""
        with open(os.path.join(self.folder, name), "rb") as file:
            return file.read(most)

    def store(self, name: str, data: bytes) -> None:
        """Sets a file to these bytes."""
        with open(os.path.join(self.folder, name), "wb") as file:
            file.write(data)


Answer = Tuple[int, str]


def load(shelf: Shelf, name: str, most: int) -> bytes:
    """The bytes of a file, by the read fault and L1 ("Limits")."""
    try:
        data = shelf.load(name, most + 1)
    except OSError:
        raise Stopped(READ_FAULT, "read fault\n") from None
    if len(data) > most:
        raise Stopped(4, f"limit L1: over {most}\n")
    return data


def store(shelf: Shelf, name: str, data: bytes) -> None:
    """Stores OUT, or ends the call without a line."""
    try:
        shelf.store(name, data)
    except OSError:
        raise Stopped(WRITE_FAULT, "") from None


# Transformed tests

@dataclass
class Transformed:
    """A test with its new code and its output."""
    test: Test
    woven: Woven
    output: bytes


def transform(data: bytes, options: Options) -> Transformed:
    """What a file is transformed to, by all rules and limits in their order ("Printed lines")."""
    test = admit(read_elf(data), options)
    woven = (weave if options.lean is None else weave_lean)(test, options, blocks(test, options))
    return Transformed(test, woven, output_file(test, woven))


def transform_line(done: Transformed) -> str:
    """The line of `transform` ("Printed lines")."""
    bounds, woven = done.woven.bounds, done.woven
    pieces = sum(len(block.pieces) for block in woven.blocks)
    return (f"code {4 * len(woven.words)} bytes, entries {len(woven.entries)}, pieces {pieces}, "
            f"half {done.test.distance}, register bound {bounds.register}, "
            f"word bound {number_or_none(bounds.word)}\n")


def plan_text(done: Transformed) -> str:
    """The plan ("Printed lines")."""
    woven, pieces = done.woven, []
    for block in woven.blocks:
        first = block.start
        for length in block.pieces:
            pieces.append([block.start, first, length])
            first += 4 * length
    bounds = woven.bounds
    early = {} if bounds.early_register is None else {"early_register": bounds.early_register, "early_word": bounds.early_word}
    plan = {
        "base": done.test.base,
        "bounds": {**early, "piece": bounds.piece, "register": bounds.register, "word": bounds.word},
        "code": 4 * len(woven.words),
        "entries": sorted(list(row) for row in woven.entries.items()),
        "half": done.test.distance,
        "pieces": pieces,
        "words": done.test.data_words,
    }
    return json.dumps(plan, separators=(",", ":")) + "\n"


# What words are for

def role_line(address: int, word: int, role: Role) -> str:
    """The line of a word of the new code ("Printed lines", explain)."""
    return f"{isa.text_of(word)} # {hex16(address)} {role.text()}\n"


def near_text(file: File, address: int) -> str:
    """NAME+0xN of the nearest symbol of an address, where there is one ("Roles")."""
    symbol = file.nearest(address)
    return f"{printable(symbol.name)}+0x{address - symbol.value:x}" if symbol else ""


def symbol_line(file: File, role: Role) -> str:
    """The symbol of the input address of a role, where there is one ("Printed lines", explain)."""
    near = near_text(file, role.addresses[0]) if role.addresses else ""
    return f"symbol {near}\n" if near else ""


FIRED_LINES = {
    "leave": "the originals and the pairs lead to different places",
    "check": "the check was called from another block than that of the signature",
    "look-up": "two look-ups of the entry of the signature differ",
    "visit": "a data word and its duplicate differ, its address is in x15",
    "sweep": "a data word and its duplicate differ, its address is in x15"}


def fired_line(role: Role) -> str:
    """What differed where the EBREAK of a role is reached ("Printed lines", explain)."""
    if role.register is not None:
        return f"fired: x{role.register} and x{pair(role.register)} differ\n"
    if role.name in ("entry", "signature"):
        return f"fired: the signature is not that of {hex16(role.addresses[0])}\n"
    return f"fired: {FIRED_LINES[role.name]}\n" if role.name in FIRED_LINES else ""


def explained(done: Transformed, options: Options, at: Optional[int]) -> str:
    """What each word of the new code is for, or the word at one address ("Printed lines", explain)."""
    base, words = done.test.new_code, done.woven.words
    of = done.woven
    roles = Weave(done.test, options, of.far).roles(of.blocks) if options.lean is None else Lean(done.test, options, of.blocks).roles()
    if at is None:
        return "".join(role_line(base + 4 * k, word, role) for k, (word, role) in enumerate(zip(words, roles)))
    if at % 4 != 0 or not base <= at < base + 4 * len(words):
        raise Refused(f"N1: address {hex16(at)}")
    word, role = words[(at - base) // 4], roles[(at - base) // 4]
    fired = fired_line(role) if isa.decode(word) == isa.EBREAK else ""
    return role_line(at, word, role) + symbol_line(done.test.file, role) + fired


# Runs

def check_memory(files: List[File]) -> None:
    """L6 ("Limits")."""
    total = sum(s.memsz for file in files for s in file.segments if s.is_load)
    if total > MOST_MEMORY:
        raise Exceeded("L6", total, MOST_MEMORY)


def status_of(outcomes: List[str]) -> int:
    """The exit code of the worst of these outcomes (COMMANDS.md, "Exit codes")."""
    if FIRED in outcomes:
        return FIRED_STATUS
    if any(outcome not in (ENDED, GOING) for outcome in outcomes):
        return TRAPPED_STATUS
    return GOING_STATUS if GOING in outcomes else ENDED_STATUS


def jumps_line(hart: Watched) -> str:
    """The line of `--reached` ("Printed lines", run)."""
    if hart.astray is None:
        return "jumps reached\n"
    return f"jump at {hex16(hart.astray[0])} to {hex16(hart.astray[1])} not reached\n"


def slip_line(found: Optional[Tuple[int, bool]]) -> str:
    """The line of `--slip` ("Printed lines", run)."""
    if found is None:
        return "slip not reached\n"
    return f"{'slipped' if found[1] else 'no such slip'} at {hex16(found[0])}\n"


def hart_text(hart: Hart, second: str = "") -> str:
    """The lines of `run` about a hart, with a second one where there is one ("Printed lines")."""
    lines = [f"{hart.outcome} after {hart.steps} steps at {hex16(hart.pc)}\n", second]
    lines += [f"x{register} {hex16(hart.x[register])}\n" for register in range(1, 32)]
    return "".join(lines)


def dump_text(memory: Memory, address: int, length: int) -> str:
    """The lines of a dump ("Printed lines")."""
    lines = []
    for first in range(address, address + length, 16):
        found = [memory.load(at, 1) for at in range(first, min(first + 16, address + length))]
        lines.append(hex16(first) + "".join(" --" if byte is None else f" {byte:02x}" for byte in found) + "\n")
    return "".join(lines)


def listing(file: File) -> str:
    """The lines of `list` ("Printed lines")."""
    code, memory = code_ranges(file), Memory(loads_of(file))
    lines = []
    for addresses in code.words():
        for address in addresses:
            if code.hold(address, address + 4):
                word = memory.load(address, 4)
                lines.append(f"{isa.text_of(word)} # {hex16(address)} 0x{word:08x}\n")
    return "".join(lines)


def check_apart(files: List[File]) -> None:
    """H1 ("Printed lines")."""
    ranges = [[(s.vaddr, s.end) for s in loads_of(file)] for file in files]
    for first in range(len(files)):
        for second in range(first + 1, len(files)):
            if first_sharing(ranges[first] + ranges[second]):
                raise Refused(f"H1: files {first} and {second}")


def play(files: List[File], turns: List[int], count: int) -> List[Hart]:
    """The harts of files in one memory, after so many turns ("A file in memory")."""
    memory = Memory([segment for file in files for segment in loads_of(file)])
    harts = [Hart(memory, code_ranges(file), file.entry) for file in files]
    turn = 0
    while turn < count and any(harts[number].outcome == GOING for number in turns):
        hart = harts[turns[turn % len(turns)]]
        if hart.outcome == GOING:
            hart.step()
        turn += 1
    return harts


# Commands

def _transform(order: Order, shelf: Shelf) -> Answer:
    """`transform`."""
    done = transform(load(shelf, order.files[0], MOST_INPUT), order.options())
    store(shelf, order.files[1], done.output)
    return 0, transform_line(done)


def _plan(order: Order, shelf: Shelf) -> Answer:
    """`plan`."""
    return 0, plan_text(transform(load(shelf, order.files[0], MOST_INPUT), order.options()))


def _explain(order: Order, shelf: Shelf) -> Answer:
    """`explain`."""
    done = transform(load(shelf, order.files[0], MOST_INPUT), order.options())
    return 0, explained(done, order.options(), order.values.get("at"))


def _run(order: Order, shelf: Shelf) -> Answer:
    """`run`."""
    file = read_elf(load(shelf, order.files[0], MOST_FILE))
    test = admit(file, Options()) if "reached" in order.flags else None
    check_memory([file])
    hart = start_watched(file, reached(test)) if test else start(file)
    changes, slip, most = order.values.get("fault", []), order.values.get("slip"), order.values.get("steps", DEFAULT_STEPS)
    if slip:
        second = slip_line(run_slipped(hart, changes, slip, most))
    else:
        run_changed(hart, changes, most)
        second = jumps_line(hart) if test else ""
    dump = order.values.get("dump")
    return status_of([hart.outcome]), hart_text(hart, second) + (dump_text(hart.memory, *dump) if dump else "")


def _campaign(order: Order, shelf: Shelf) -> Answer:
    """`campaign`."""
    done = transform(load(shelf, order.files[0], MOST_INPUT), order.options())
    course = Course(done.test, done.woven, done.output)
    values = order.values
    aim = Aim(values.get("only"), values.get("from", 0), values.get("to"))
    if aim.only == "slips":
        return 0, slips_text(course, course.draw_slips(values["seed"], values["count"], aim), "results" in order.flags)
    strikes = course.draw(values["seed"], values["count"], values.get("changes", 1), aim)
    return strikes_text(course, strikes, "results" in order.flags)


def _gen(order: Order, shelf: Shelf) -> Answer:
    """`gen`."""
    seed, size = order.values["seed"], order.values["size"]
    data = generate(seed, size)
    done = transform(data, Options())
    harts = [start(done.test.file), start(read_elf(done.output))]
    for hart in harts:
        hart.run(GENERATED_STEPS)
    store(shelf, order.files[0], data)
    ends = [f"{hart.outcome.split()[0]} after {hart.steps} steps" for hart in harts]
    bounds = done.woven.bounds
    return 0, (f"seed {seed}, size {size}, code words {len(done.test.code)}, input {ends[0]}, "
               f"output code {4 * len(done.woven.words)} bytes, output {ends[1]}, "
               f"register bound {bounds.register}, word bound {number_or_none(bounds.word)}\n")


def _list(order: Order, shelf: Shelf) -> Answer:
    """`list`."""
    file = read_elf(load(shelf, order.files[0], MOST_FILE))
    check_memory([file])
    return 0, listing(file)


def _asm(order: Order, shelf: Shelf) -> Answer:
    """`asm`. Characters that are no ASCII stand in no part of a line."""
    done = assemble(load(shelf, order.files[0], MOST_INPUT).decode("latin-1"))
    parts = [(b".text", 5, CODE, packed("I", done.code)), (b".data", 6, DATA, packed("Q", done.data))]
    symbols = [(name, STT_NOTYPE, STB_LOCAL, address) for name, address in done.labels.items()]
    store(shelf, order.files[1], plain_file(parts if done.data else parts[:1], symbols))
    return 0, f"code {len(done.code)} words, data {len(done.data)} words\n"


def _harts(order: Order, shelf: Shelf) -> Answer:
    """`harts`."""
    files = [read_elf(load(shelf, name, MOST_FILE)) for name in order.files]
    check_memory(files)
    check_apart(files)
    turns = order.values.get("turns", list(range(len(files))))
    harts = play(files, turns, order.values.get("steps", DEFAULT_STEPS))
    text = "".join(f"hart {number}\n{hart_text(hart)}" for number, hart in enumerate(harts))
    return status_of([hart.outcome for hart in harts]), text


def told(topic: str) -> str:
    """The text of a topic, as TEXTS.md has it."""
    with open(os.path.join(os.path.dirname(__file__), "TEXTS.md"), encoding="utf-8") as page:
        return page.read().split(f"\n```{topic}\n")[1].split("```\n")[0]


def _help(order: Order, shelf: Shelf) -> Answer:
    """`help`."""
    topic = order.files[0] if order.files else "help"
    return 0, told("help" if topic == "version" else topic)


def _version(order: Order, shelf: Shelf) -> Answer:
    """`version`."""
    return 0, told("version")


CALLS: Dict[str, Callable[[Order, Shelf], Answer]] = {
    "transform": _transform, "plan": _plan, "explain": _explain, "run": _run, "campaign": _campaign, "gen": _gen,
    "list": _list, "asm": _asm, "harts": _harts, "help": _help, "version": _version}


def answer(words: List[str], shelf: Shelf) -> Answer:
    """The exit code of a call and what it prints."""
    try:
        order = order_of(words)
        return CALLS[order.command](order, shelf)
    except Stopped as stopped:
        return stopped.status, stopped.text


def arguments() -> Optional[List[str]]:
    """The words of the command line, or None where one is no UTF-8."""
    try:
        return [os.fsencode(word).decode("utf-8") for word in sys.argv[1:]]
    except UnicodeDecodeError:
        return None


def main() -> int:
    """The program: one call over the files of the disk."""
    status, text = answer(arguments() or [], Shelf("."))
    try:
        sys.stdout.buffer.write(encoded(text))
        sys.stdout.buffer.flush()
    except OSError:
        return WRITE_FAULT
    return status
