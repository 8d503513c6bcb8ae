"""The words of the command line (docs/FORMATS.md, "Words of the command line")."""

from __future__ import annotations

import re
from dataclasses import dataclass, field
from typing import Callable, Dict, List, Optional, Tuple, Union

from admission import Options
from lean import MOST_COUNT, few_steps
from machine import Change, Place, Slip
from texts import Usage, number_of

MOST_FAULTS = 64
WEAVING = ["inst-min", "inst-max", "round", "half", "entries", "every"]


@dataclass(frozen=True)
class Command:
    """What a command takes: files, options with a value in their order, those that must be given, flags."""
    least_files: int
    most_files: int
    options: List[str] = field(default_factory=list)
    needed: List[str] = field(default_factory=list)
    flags: List[str] = field(default_factory=list)


WEAVING_FLAGS = ["sweep", "diverse", "lean", "land"]

COMMANDS = {
    "transform": Command(2, 2, WEAVING, [], WEAVING_FLAGS),
    "plan": Command(1, 1, WEAVING, [], WEAVING_FLAGS),
    "explain": Command(1, 1, WEAVING + ["at"], [], WEAVING_FLAGS),
    "run": Command(1, 1, ["steps", "fault", "slip", "dump"], [], ["reached"]),
    "campaign": Command(1, 1, WEAVING + ["seed", "count", "changes", "only", "from", "to"], ["seed", "count"],
                        WEAVING_FLAGS + ["results"]),
    "gen": Command(1, 1, ["seed", "size"], ["seed", "size"]),
    "list": Command(1, 1),
    "asm": Command(2, 2),
    "harts": Command(1, 8, ["turns", "steps"]),
    "help": Command(0, 1),
    "version": Command(0, 0),
}
OTHER_NAMES = {"--help": "help", "-h": "help", "--version": "version"}

RANGES = {"inst-min": (1, 1024), "inst-max": (1, 1024), "round": (1, 1024), "half": (4096, 512 << 20),
          "steps": (0, 10 ** 12), "seed": (0, (1 << 64) - 1), "count": (1, 10000), "changes": (1, 16),
          "size": (1, 60000), "from": (0, 1000000), "to": (1, 1000000), "at": (0, (1 << 64) - 1), "every": (1, MOST_COUNT)}

Value = Union[int, List[Change], Slip, Tuple[int, int], List[int], str]


@dataclass
class Order:
    """What the words ask for: a command, its files, its values by their names, and its flags."""
    command: str
    files: List[str]
    values: Dict[str, Value]
    flags: List[str]

    def options(self) -> Options:
        """The options of the weave, with their defaults ("Words of the command line")."""
        is_lean = "lean" in self.flags
        most = self.values.get("inst-max", 128 if is_lean else 16)
        return Options(self.values.get("inst-min", min(4, (most + 1) // 2)), most,
                       self.values.get("round", 4 if is_lean else 1), self.values.get("half"), "sweep" in self.flags,
                       "diverse" in self.flags, self.values.get("entries", "reached" if is_lean else "all"),
                       self.values.get("every", 1200) if is_lean else None, "land" in self.flags)


def change_of(text: str) -> Optional[Change]:
    """The change that a value of `fault` is, or None (the table of values)."""
    step_text, _, rest = text.partition(":")
    place_text, _, value_text = rest.partition("=")
    step, value = number_of(step_text), number_of(value_text)
    place: Optional[Place]
    if re.fullmatch("x([1-9]|[12][0-9]|3[01])", place_text):
        place = place_text
    else:
        place = number_of(place_text)
        if place is not None and place % 8 != 0:
            place = None
    return None if None in (step, place, value) else Change(step, place, value)


def slip_of(text: str) -> Optional[Slip]:
    """The slip that a value of `slip` is, or None (the table of values)."""
    step_text, _, way = text.partition(":")
    step = number_of(step_text)
    if step is None or way in ("skip", "branch"):
        return None if step is None else Slip(step, way)
    name, _, value_text = way.partition("=")
    value = number_of(value_text)
    return Slip(step, name, value) if name in ("result", "store", "place") and value is not None else None


def dump_of(text: str) -> Optional[Tuple[int, int]]:
    """The address and the length that a value of `dump` is, or None (the table of values)."""
    address, length = (number_of(part) for part in text.partition(":")[::2])
    if address is None or length is None or not 1 <= length <= 65536 or address + length > 1 << 64:
        return None
    return address, length


def turns_of(text: str) -> Optional[List[int]]:
    """The harts that a value of `turns` names, or None (the table of values)."""
    return [int(digit) for digit in text] if re.fullmatch("[0-9]{1,64}", text) else None


def one_of(*words: str) -> Callable[[str], Optional[str]]:
    """What takes a value that is one of these words (the table of values)."""
    return lambda text: text if text in words else None


SHAPES: Dict[str, Callable[[str], Optional[Value]]] = {
    "fault": change_of, "slip": slip_of, "dump": dump_of, "turns": turns_of,
    "only": one_of("registers", "words", "slips"), "entries": one_of("all", "reached")}


def _collect(words: List[str], command: Command) -> Tuple[List[str], Dict[str, List[str]], List[str]]:
    """The files, the values of options and the flags, by the second group of reasons."""
    files: List[str] = []
    values: Dict[str, List[str]] = {}
    flags: List[str] = []
    at = 1
    while at < len(words):
        word = words[at]
        if word == "":
            raise Usage(f"empty word {at}")
        if not word.startswith("-"):
            if len(files) == command.most_files:
                raise Usage(f"extra word {at}")
            files.append(word)
            at += 1
            continue
        name, equals, value = word[2:].partition("=")
        is_flag = name in command.flags and not equals
        if not word.startswith("--") or not (is_flag or name in command.options):
            raise Usage(f"unknown option at {at}")
        if name in flags or len(values.get(name, [])) == (MOST_FAULTS if name == "fault" else 1):
            raise Usage(f"repeated option at {at}")
        if is_flag:
            flags.append(name)
            at += 1
            continue
        if not equals:
            value = words[at + 1] if at + 1 < len(words) else ""
        if value == "" or value.startswith("-"):
            raise Usage(f"missing value at {at}")
        values.setdefault(name, []).append(value)
        at += 1 if equals else 2
    return files, values, flags


def _value_of(name: str, texts: List[str], files: int) -> Value:
    """The value of an option, by the fourth group of reasons."""
    if name in SHAPES:
        shaped = [SHAPES[name](text) for text in texts]
        if None in shaped:
            raise Usage(f"bad shape {name}")
        if name == "turns" and any(hart >= files for hart in shaped[0]):
            raise Usage(f"out of range {name}")
        return sorted(shaped, key=lambda change: change.step) if name == "fault" else shaped[0]
    number = number_of(texts[0])
    if number is None:
        raise Usage(f"bad number {name}")
    least, most = RANGES[name]
    if not least <= number <= most or name == "half" and number % 4096 != 0:
        raise Usage(f"out of range {name}")
    return number


def _lean(options: Options) -> None:
    """The sixth group of reasons, of the lean form."""
    if options.entries == "all":
        raise Usage("all entries")
    most = few_steps(options)
    if options.lean <= most:
        raise Usage(f"few steps {most}")


def order_of(words: List[str]) -> Order:
    """What the words ask for, or the first reason why they ask for none."""
    if not words:
        raise Usage("no command")
    called = OTHER_NAMES.get(words[0], words[0])
    if called not in COMMANDS:
        raise Usage("unknown command")
    command = COMMANDS[called]
    files, texts, flags = _collect(words, command)
    if len(files) < command.least_files:
        raise Usage("missing file")
    for name in command.needed:
        if name not in texts:
            raise Usage(f"missing option {name}")
    order = Order(called, files, {}, flags)
    for name in command.options:
        if name in texts:
            order.values[name] = _value_of(name, texts[name], len(files))
    if "inst-max" in command.options and 2 * order.options().inst_min > order.options().inst_max + 1:
        raise Usage("split")
    if ("every" in order.values or "land" in flags) and "lean" not in flags:
        raise Usage("missing option lean")
    if "lean" in flags:
        _lean(order.options())
    if "from" in order.values and "to" in order.values and order.values["from"] >= order.values["to"]:
        raise Usage("out of range to")
    if "slip" in order.values and "reached" in flags:
        raise Usage("slip and reached")
    if order.values.get("only") == "slips" and order.values.get("changes", 1) != 1:
        raise Usage("out of range changes")
    if called == "help" and files and files[0] not in COMMANDS:
        raise Usage("unknown command")
    return order
