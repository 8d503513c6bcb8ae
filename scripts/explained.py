"""What `qed` says of an output, and the names and the lines of its test, for fired.py and report.py."""

import bisect
import os
import re
import shutil
import subprocess
import sys
from array import array
from collections import namedtuple

from strikes import FUNCTION, NoOutput, read_output

VALUES = {"inst-min": "N", "inst-max": "N", "round": "K", "half": "BYTES", "entries": "SET", "every": "N"}
FLAGS = ("sweep", "diverse", "lean", "land")
TOOLS = ("riscv64-unknown-elf-addr2line", "riscv64-linux-gnu-addr2line", "llvm-addr2line",
         *(f"llvm-addr2line-{number}" for number in range(25, 13, -1)))
NO_TOOL = "no addr2line, so no file and line: install riscv64-unknown-elf-addr2line or llvm-addr2line"
LAST_NAME = chr(0x10FFFF)
LINE = re.compile(r"(.+) # (0x[0-9a-f]{16}) (.+)")
ROLE = re.compile(r"(leave guard|look-up|[a-z]+)(?: x(\d+))?(?: (0x[0-9a-f]+)(?:\.\.(0x[0-9a-f]+))?| (end|check))?")

# A word of the new code: its text, and of its role the name, the register, and the input addresses or else the place.
Word = namedtuple("Word", "text role register addresses place")


class Stop(Exception):
    """The call cannot go on: the line for standard error."""


def add_options(parser):
    """The program, and the options of `transform`."""
    parser.add_argument("--program", default="qed", help="the built `qed` (default: qed)")
    made = parser.add_argument_group("the options that made OUT")
    for name, value in VALUES.items():
        made.add_argument(f"--{name}", metavar=value)
    for name in FLAGS:
        made.add_argument(f"--{name}", action="store_true")


def options_of(given):
    """The words of the options of `transform`."""
    values = vars(given)
    words = [f"--{name}={values[name.replace('-', '_')]}" for name in VALUES if values[name.replace("-", "_")] is not None]
    return words + [f"--{name}" for name in FLAGS if values[name]]


def said(program, *words):
    """What a call of the program prints, as bytes."""
    try:
        done = subprocess.run([program, *words], stdout=subprocess.PIPE, stderr=subprocess.PIPE, check=False)
    except OSError as error:
        raise Stop(f"{program}: {error.strerror}: name the built `qed` with --program") from None
    if done.returncode:
        lines = (done.stdout or done.stderr).decode(errors="replace").splitlines() or [f"exit code {done.returncode}"]
        raise Stop(f"{program} {words[0]}: {lines[0]}")
    return done.stdout


def lines_of(text):
    """The lines of a text that is bytes."""
    return text.decode(errors="replace").splitlines()


class Words:
    """The words of the new code by address, as `qed explain` prints them. There may be millions, so a line is read when it is needed."""

    def __init__(self, program, test, options):
        self.text, self.known = said(program, "explain", test, *options), {}
        self.starts = array("Q", [0])
        self.starts.extend(found.end() for found in re.finditer(b"\n", self.text))
        first = re.match(rb".+? # (0x[0-9a-f]{16}) ", self.text)
        if not first:
            raise Stop(f"{program} explain: no line of a word")
        self.first, self.last = int(first[1], 16), int(first[1], 16) + 4 * (len(self.starts) - 2)

    def __contains__(self, address):
        return address % 4 == 0 and self.first <= address <= self.last

    def __getitem__(self, address):
        if address not in self.known:
            at = (address - self.first) // 4
            line = self.text[self.starts[at]:self.starts[at + 1]].decode(errors="replace").rstrip()
            found = LINE.fullmatch(line)
            role = found and int(found[2], 16) == address and ROLE.fullmatch(found[3])
            if not role:
                raise Stop(f"no line of `qed explain`: {line!r}")
            addresses = tuple(int(part, 16) for part in role.group(3, 4) if part)
            self.known[address] = Word(found[1], role[1], role[2] and int(role[2]), addresses, role[5])
        return self.known[address]


def reference():
    """Puts the modules of reference/ where they are found. Nothing is left in the folder of a package."""
    sys.path.insert(0, os.path.join(os.path.dirname(os.path.abspath(__file__)), "..", "reference"))
    sys.dont_write_bytecode = True


def read_test(name):
    """A test as the reference reads it."""
    reference()
    from elf import read_elf
    from texts import Stopped
    try:
        with open(name, "rb") as file:
            return read_elf(file.read())
    except OSError as error:
        raise Stop(f"{name}: {error.strerror}") from None
    except Stopped as stopped:
        raise Stop(f"{name}: {stopped.text.strip()}") from None


def read_out(name):
    """An output as the reference reads it, and its pairs of a new and an input address, ascending."""
    try:
        return read_output(name)
    except NoOutput as error:
        raise Stop(str(error)) from None


class Names:
    """The names of a test's addresses. Of several at one address a function's counts; `.L` labels and mapping symbols do not."""

    def __init__(self, file):
        from texts import printable
        symbols = [symbol for symbol in file.symbols if symbol.shndx and symbol.is_telling and not symbol.name.startswith(b".L")]
        kinds = {0: 1, FUNCTION: 0}
        code = sorted((symbol.value, kinds[symbol.type], printable(symbol.name)) for symbol in symbols if symbol.type in kinds)
        self.places = [(value, name) for at, (value, _, name) in enumerate(code) if not at or code[at - 1][0] < value]
        self.functions = [(value, name) for value, kind, name in code if kind == 0] or self.places
        self.objects = sorted((symbol.value, symbol.size, printable(symbol.name)) for symbol in symbols if symbol.type < FUNCTION)
        self.segments = [(segment.vaddr, segment.end) for segment in file.segments if segment.is_load]

    @staticmethod
    def nearest(places, address):
        """The last name that stands at an address or before it, and how far before."""
        at = bisect.bisect_right(places, (address, LAST_NAME)) - 1
        return (places[at][1], address - places[at][0]) if at >= 0 else ("", 0)

    def place(self, address):
        """NAME or NAME+0xN of an address of code, or nothing."""
        name, behind = self.nearest(self.places, address)
        return f"{name}+0x{behind:x}" if behind else name

    def function(self, address):
        """The name of the function of an address, or nothing."""
        return self.nearest(self.functions, address)[0]

    def object(self, address):
        """The object that has a data word, or else the nearest symbol before it in its segment, and how far before it that stands."""
        start = next((start for start, end in self.segments if start <= address < end), address)
        objects = [part for part in self.objects if start <= part[0] <= address]
        holders = [(value, name) for value, size, name in objects if address < value + size]
        return self.nearest(holders or [(value, name) for value, _, name in objects], address)

    def data(self, address):
        """NAME or NAME+0xN of a data word, or nothing."""
        name, behind = self.object(address)
        return f"{name}+0x{behind:x}" if behind else name


class Lines:
    """The files and lines of a test's addresses, if it has debug information and the machine a tool that reads it."""

    def __init__(self, name, file):
        self.name, self.known = name, {}
        self.has_lines = any(section.name == b".debug_line" for section in file.sections)
        self.tool = next((tool for tool in TOOLS if shutil.which(tool)), None)

    @property
    def note(self):
        """What to say if lines are missing."""
        return NO_TOOL if self.has_lines and not self.tool else ""

    def look_up(self, addresses):
        """Looks addresses up, all in one call."""
        from texts import printable
        new = sorted(set(addresses) - self.known.keys())
        if not new or not self.has_lines or not self.tool:
            return
        done = subprocess.run([self.tool, "-e", self.name], input="".join(f"0x{address:x}\n" for address in new).encode(),
                              stdout=subprocess.PIPE, stderr=subprocess.DEVNULL, check=False)
        for address, line in zip(new, done.stdout.splitlines()):
            known = not line.startswith(b"?") and re.match(rb"(.*):(\d+)", line)
            self.known[address] = f"{os.path.basename(printable(known[1]))}:{int(known[2])}" if known else ""

    def line(self, address):
        """FILE:LINE of an address, or nothing."""
        self.look_up([address])
        return self.known.get(address, "")
