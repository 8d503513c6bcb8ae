"""Answers of rows (crates/qed_rows/README.md, "A line"), with this program in the place of the other."""

from __future__ import annotations

import hashlib
import os
import tempfile
from typing import Callable, Dict, List, Optional, Tuple

import isa
from advice import advice
from admission import Options, admit, blocks, leaders, reached
from calls import WRITE_FAULT, Shelf, answer, transform
from campaign import Course, is_closed, strikes_text
from elf import read_elf
from machine import Change, Slip, start
from texts import Stopped, Usage, encoded, number_or_none
from weave import bounds
from words import Order, change_of, number_of, order_of

NO_MEMORY = 7
NO_OUTPUT = "no output\n"


class Unreadable(Exception):
    """A line that is none of the lines of the page."""


class MemoryShelf(Shelf):
    """Files in memory, of which loads and stores fail as they are told."""

    def __init__(self) -> None:
        super().__init__("")
        self.files: Dict[str, bytearray] = {}
        self.faults: Dict[int, Optional[int]] = {}
        self.calls = 0

    def _fault(self) -> Tuple[bool, Optional[int]]:
        """Counts a call, and says whether it fails and how much of a stored file it leaves."""
        number = self.calls
        self.calls += 1
        return number in self.faults, self.faults.get(number)

    def load(self, name: str, most: int) -> bytes:
        fails, _ = self._fault()
        if fails or name not in self.files:
            raise OSError(name)
        return bytes(self.files[name][:most])

    def store(self, name: str, data: bytes) -> None:
        fails, keep = self._fault()
        if not fails:
            self.files[name] = bytearray(data)
            return
        if keep is not None:
            self.files[name] = bytearray(data[:keep])
        raise OSError(name)


def _number(text: str) -> int:
    """A number of a row."""
    number = number_of(text)
    if number is None:
        raise Unreadable()
    return number


def _digest(data: bytes) -> str:
    """The size and the digest of a file or a text."""
    return f"{len(data)} bytes, md5 {hashlib.md5(data).hexdigest()}"


# Orders, as Rust's Debug writes them

def _name(text: str) -> str:
    """A name."""
    escaped = text.replace("\\", "\\\\").replace('"', '\\"')
    return f'Name {{ text: "{escaped}" }}'


def _key(name: str) -> str:
    """An option."""
    return "".join(part.capitalize() for part in name.split("-"))


def _options(options: Options) -> str:
    """The options of the weave."""
    half, lean = ("None" if number is None else f"Some({number})" for number in (options.half, options.lean))
    return (f"Options {{ inst_min: {options.inst_min}, inst_max: {options.inst_max}, round: {options.round}, "
            f"half: {half}, sweep: {str(options.sweep).lower()}, diverse: {str(options.diverse).lower()}, "
            f"entries: {options.entries.capitalize()}, lean: {lean}, land: {str(options.land).lower()} }}")


def _change(change: Change) -> str:
    """A change."""
    place = (f"Reg(Reg {{ number: {change.place[1:]} }})" if isinstance(change.place, str)
             else f"Word({change.place})")
    return f"Change {{ step: {change.step}, place: {place}, value: {change.value} }}"


def _slip(slip: Slip) -> str:
    """A slip."""
    way = slip.way.capitalize() + ("" if slip.value is None else f"({slip.value})")
    return f"SlipAt {{ step: {slip.step}, slip: {way} }}"


def _listed(items: List[str]) -> str:
    """A list."""
    return f"Listed {{ items: [{', '.join(items)}] }}"


def reason_text(reason: str) -> str:
    """A reason for a usage line."""
    forms = [("empty word", "EmptyWord"), ("unknown option at", "UnknownOption"), ("repeated option at", "Repeated"),
             ("missing value at", "MissingValue"), ("extra word", "ExtraWord"), ("missing option", "MissingOption"),
             ("bad number", "BadNumber"), ("bad shape", "BadShape"), ("out of range", "OutOfRange"),
             ("few steps", "FewSteps")]
    for words, variant in forms:
        if reason.startswith(words + " "):
            last = reason[len(words) + 1:]
            return f"{variant}({last if last.isdigit() else _key(last)})"
    return "".join(word.capitalize() for word in reason.split())


def order_text(order: Order) -> str:
    """An order."""
    values = order.values
    parts = [_name(file) for file in order.files]
    if order.command in ("transform", "plan", "explain", "campaign"):
        parts.append(_options(order.options()))
    if order.command == "explain":
        parts.append(f"Some({values['at']})" if "at" in values else "None")
    if order.command == "run":
        dump = "Some(({}, {}))".format(*values["dump"]) if "dump" in values else "None"
        changes = _listed([_change(change) for change in values.get("fault", [])])
        slip = f"Slip({_slip(values['slip'])})" if "slip" in values else "Nothing"
        parts += [str(values.get("steps", 1000000)), changes, dump, "Jumps" if "reached" in order.flags else slip]
    elif order.command == "campaign":
        only = values.get("only", "slips")
        places = "None" if only == "slips" else f"Some({only.capitalize()})"
        end = f"Some({values['to']})" if "to" in values else "None"
        parts += [f"Draws {{ seed: {values['seed']}, count: {values['count']}, changes: {values.get('changes', 1)}, "
                  f"aim: Aim {{ only: {places}, from: {values.get('from', 0)}, to: {end} }} }}",
                  str("results" in order.flags).lower()]
        if values.get("only") == "slips":
            return f"Slips({', '.join(parts)})"
    elif order.command == "gen":
        parts += [str(values["seed"]), str(values["size"])]
    elif order.command == "harts":
        turns = f"Some(Bytes {{ stored: Own({values['turns']}) }})" if "turns" in values else "None"
        parts = [_listed(parts), turns, str(values.get("steps", 1000000))]
    elif order.command == "help":
        return f"Tell(One({order.files[0].capitalize()}))" if order.files else "Tell(All)"
    elif order.command == "version":
        return "Tell(Version)"
    return f"{order.command.capitalize()}({', '.join(parts)})"


# The rows

class Rows:
    """A shelf and a sink, and what the lines so far have made of them."""

    def __init__(self) -> None:
        self.clear()

    def clear(self) -> None:
        """A new shelf, and sinks that do not fail."""
        self.folder = tempfile.TemporaryDirectory()
        self.shelf = MemoryShelf()
        self.failing_write: Optional[int] = None
        self.most: Optional[int] = None

    def printed(self, text: str) -> Tuple[bytes, bool]:
        """What a sink takes of a text, and whether it takes all of it."""
        data, taken, call = encoded(text), 0, 0
        while taken < len(data):
            count = len(data) - taken if self.most is None else min(self.most, len(data) - taken)
            if call == self.failing_write or count == 0:
                return data[:taken], False
            taken += count
            call += 1
        return data, True

    def call(self, words: List[str], shelf: Optional[Shelf] = None) -> Tuple[bytes, int]:
        """A call of the whole program: what it prints, and its exit code."""
        status, text = answer(words, shelf or self.shelf)
        data, is_whole = self.printed(text)
        return data, status if is_whole else WRITE_FAULT

    def on_disk(self, name: str) -> str:
        """The path of a name in the folder of the machine's files."""
        return os.path.join(self.folder.name, name)

    def file(self, name: str) -> bytes:
        """The bytes of a file that has to be there."""
        if name not in self.shelf.files:
            raise Unreadable()
        return bytes(self.shelf.files[name])

    def order(self, words: List[str]) -> Order:
        """The order of a name and the options of `plan`."""
        try:
            return order_of(["plan"] + words)
        except Usage:
            raise Unreadable() from None

    def course(self, words: List[str]) -> Optional[Course]:
        """The course of a name and options, or None where there is no output."""
        order = self.order(words)
        try:
            done = transform(self.file(order.files[0]), order.options())
        except Stopped:
            return None
        return Course(done.test, done.woven, done.output)


def _shown(data: bytes, status: int) -> str:
    """What a call printed, and its exit code."""
    return f"{data.decode()}= {status}\n"


def _qed(rows: Rows, words: List[str]) -> str:
    """`qed`, `alone`, and a program's arguments."""
    return _shown(*rows.call(words))


def _never(rows: Rows, words: List[str]) -> str:
    """`never`: a shelf on which nothing fails, and what is not there has no bytes."""
    shelf = MemoryShelf()
    shelf.files = {word: rows.shelf.files.get(word, bytearray()) for word in words}
    status, text = answer(words, shelf)
    return _shown(encoded(text), status)


def _narrow(rows: Rows, words: List[str]) -> str:
    """`narrow`: a writer with room for so many bytes."""
    status, text = answer(words[1:], rows.shelf)
    data, room = encoded(text), _number(words[0])
    return _shown(data[:room], status if len(data) <= room else WRITE_FAULT)


def _disk(rows: Rows, words: List[str]) -> str:
    """`disk`: the machine's files."""
    return _shown(*rows.call(words, Shelf(rows.folder.name)))


def _put(rows: Rows, words: List[str]) -> str:
    """`put`."""
    with open(rows.on_disk(words[0]), "wb") as file:
        file.write(rows.file(words[0]))
    return ""


def _take(rows: Rows, words: List[str]) -> str:
    """`take`."""
    with open(rows.on_disk(words[0]), "rb") as file:
        rows.shelf.files[words[0]] = bytearray(file.read())
    return ""


def _kind(rows: Rows, words: List[str]) -> str:
    """`kind`."""
    path = rows.on_disk(words[0])
    return ("link" if os.path.islink(path) else "file" if os.path.exists(path) else "nothing") + "\n"


def _digest_line(rows: Rows, words: List[str]) -> str:
    """`digest`."""
    data, status = rows.call(words)
    return f"{_digest(data)}\n= {status}\n"


def _order(rows: Rows, words: List[str]) -> str:
    """`order`."""
    try:
        return f"Ok({order_text(order_of(words))})\n"
    except Usage as usage:
        return f"Err(Usage({reason_text(usage.reason)}))\n"


def _numbers(words: List[str], size: int) -> bytes:
    """The bytes of numbers of one size, each once or so often."""
    data = bytearray()
    for word in words:
        number, _, times = word.partition("*")
        data += (_number(number) % (1 << 8 * size)).to_bytes(size, "little") * (_number(times) if times else 1)
    return bytes(data)


def _append(size: int) -> Callable[[Rows, List[str]], str]:
    """`bytes`, `words` and `longs`."""
    def append(rows: Rows, words: List[str]) -> str:
        if len(words) < 2:
            raise Unreadable()
        data = _numbers(words[1:], size)
        rows.shelf.files.setdefault(words[0], bytearray()).extend(data)
        return ""
    return append


def _records(rows: Rows, words: List[str]) -> str:
    """`records`."""
    numbers = [[_number(part) for part in word.split("+")] for word in words[2:]]
    if not numbers or any(len(number) > 2 for number in numbers):
        raise Unreadable()
    file = rows.shelf.files.setdefault(words[0], bytearray())
    for record in range(_number(words[1])):
        for first, *step in numbers:
            file += ((first + record * sum(step)) % (1 << 64)).to_bytes(8, "little")
    return ""


def _set(rows: Rows, words: List[str]) -> str:
    """`set`."""
    place, file = _number(words[1]), rows.shelf.files[words[0]]
    data = _numbers(words[2:], 1)[:max(len(file) - place, 0)]
    file[place:place + len(data)] = data
    return ""


def _cut(rows: Rows, words: List[str]) -> str:
    """`cut`."""
    rows.shelf.files[words[0]] = bytearray(rows.file(words[1])[:_number(words[2])])
    return ""


def _fail(rows: Rows, words: List[str]) -> str:
    """`fail`."""
    if words[0] == "shelf":
        rows.shelf.faults[_number(words[1])] = _number(words[2]) if len(words) > 2 else None
    elif words[0] == "write":
        rows.failing_write = _number(words[1])
    elif words[0] == "most":
        rows.most = _number(words[1])
    else:
        raise Unreadable()
    return ""


def _show(rows: Rows, words: List[str]) -> str:
    """`show`."""
    return (_digest(rows.file(words[0])) if words[:1] and words[0] in rows.shelf.files else "no file") + "\n"


def _read(rows: Rows, words: List[str]) -> str:
    """`read`."""
    file = read_elf(rows.file(words[0]))
    lines = [f"entry 0x{file.entry:x} flags 0x{file.flags:x}"]
    for s in file.segments:
        lines.append(f"segment type 0x{s.type:x} flags 0x{s.flags:x} at 0x{s.vaddr:x} memory 0x{s.memsz:x}, "
                     f"{_digest(s.data)}")
    for s in file.sections:
        lines.append(f"section {s.name.decode(errors='replace') or '-'} type 0x{s.type:x} flags 0x{s.flags:x} "
                     f"at 0x{s.addr:x} size 0x{s.size:x}")
    for s in file.symbols:
        lines.append(f"symbol {s.name.decode(errors='replace') or '-'} value 0x{s.value:x} size 0x{s.size:x} "
                     f"type {s.type} binding {s.binding} other {s.other} section 0x{s.shndx:x}")
    for r in file.relocations:
        lines.append(f"relocation at 0x{r.offset:x} type {r.type} symbol {r.symbol} addend {r.addend}")
    return "\n".join(lines) + "\n"


def _test(rows: Rows, words: List[str]) -> str:
    """`test`."""
    order = rows.order(words)
    test = admit(read_elf(rows.file(order.files[0])), order.options())
    low = min(s.vaddr for s in test.image)
    lines = [f"entry 0x{test.file.entry:x} image 0x{low:x} to 0x{test.end:x} base 0x{test.base:x} "
             f"distance 0x{test.distance:x}"]
    lines += [f"range 0x{start:x} to 0x{end:x}" for start, end in test.ranges.ranges]
    lines += [f"data 0x{data.start:x} to 0x{data.end:x}" for data in test.data]
    lines += [f"word 0x{address:x} 0x{isa.encode(i):08x}" for address, i in test.code.items()]
    lines += [f"leader 0x{address:x}" for address in sorted(leaders(test, order.options()))]
    for block in blocks(test, order.options()):
        end = "None" if block.end is None else "Some({})".format(
            "Illegal" if block.end == isa.ZERO else block.end.name.capitalize())
        lines.append(f"block 0x{block.start:x} {block.pieces} {end}")
    return "\n".join(lines) + "\n"


def _reached(rows: Rows, words: List[str]) -> str:
    """`reached`."""
    order = rows.order(words)
    test = admit(read_elf(rows.file(order.files[0])), order.options())
    return "".join(f"reached 0x{address:x}\n" for address in sorted(reached(test)))


def _course(rows: Rows, words: List[str]) -> str:
    """`course`."""
    course = rows.course(words)
    return f"reach {course.reach} snapshots {len(course.snapshots)}\n" if course else NO_OUTPUT


def _strike(rows: Rows, words: List[str]) -> str:
    """`strike`."""
    place = words.index("with")
    changes = [change_of(word) for word in words[place + 1:]]
    if None in changes or not changes:
        raise Unreadable()
    changes.sort(key=lambda change: change.step)
    course = rows.course(words[:place])
    return strikes_text(course, [changes])[1] if course else NO_OUTPUT


def _closed(rows: Rows, words: List[str]) -> str:
    """`closed`."""
    change = change_of(f"{words[1]}:{words[2]}=0")
    if change is None:
        raise Unreadable()
    hart = start(read_elf(rows.file(words[0])))
    hart.run(change.step)
    return ("closed" if is_closed(hart, change.place) else "open") + "\n"


def _bounds(rows: Rows, words: List[str]) -> str:
    """`bounds`."""
    data_words, ranges, times, most = (_number(word) for word in words[:4])
    if times == 0 or not set(words[4:]) <= {"far", "sweep", "diverse"}:
        raise Unreadable()
    options = Options(inst_max=most, round=times, sweep="sweep" in words, diverse="diverse" in words)
    b = bounds(data_words, ranges, options, "far" in words)
    if max(b.piece, b.register, b.word or 0, b.start) >= 1 << 64:
        return "none\n"
    return f"piece {b.piece} register {b.register} word {number_or_none(b.word)} start {b.start}\n"


def _link(rows: Rows, words: List[str]) -> str:
    """`link`."""
    os.symlink(words[1], rows.on_disk(words[0]))
    return ""


def _clear(rows: Rows, words: List[str]) -> str:
    """`shelf`."""
    rows.clear()
    return ""


def _text(rows: Rows, words: List[str]) -> str:
    """`text`."""
    rows.shelf.files[words[0]] = bytearray(" ".join(words[1:]).encode())
    return ""


def _line(rows: Rows, words: List[str]) -> str:
    """`line`."""
    rows.shelf.files[words[0]].extend(("\n" + " ".join(words[1:])).encode())
    return ""


LINES: Dict[str, Callable[[Rows, List[str]], str]] = {
    "shelf": _clear, "bytes": _append(1), "words": _append(4), "longs": _append(8), "records": _records,
    "text": _text, "line": _line, "set": _set, "cut": _cut, "fail": _fail, "qed": _qed, "digest": _digest_line,
    "alone": lambda rows, words: _qed(rows, []), "unreadable": lambda rows, words: _qed(rows, []),
    "arguments": lambda rows, words: _qed(rows, words[1:]),
    "starved": lambda rows, words: f"= {NO_MEMORY}\n", "order": _order, "show": _show, "read": _read,
    "never": _never, "narrow": _narrow, "disk": _disk, "put": _put, "take": _take, "kind": _kind,
    "advice": lambda rows, words: advice(words, rows.shelf),
    "test": _test, "reached": _reached, "course": _course, "strike": _strike, "closed": _closed, "bounds": _bounds, "link": _link}


def answer_of(rows: Rows, line: str) -> str:
    """What is printed below a line."""
    if line == "" or line.startswith("#"):
        return ""
    first, *words = line.split(" ")
    if first not in LINES:
        return "cannot be read\n"
    if first in ("qed", "digest", "order") and not words:
        words = [""]
    try:
        return LINES[first](rows, words)
    except Stopped as stopped:
        return stopped.text
    except OSError:
        return "not done\n"
    except (Unreadable, IndexError, KeyError, TypeError, ValueError):
        return "cannot be read\n"
