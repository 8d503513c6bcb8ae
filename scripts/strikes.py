#!/usr/bin/env python3
"""Reads what `qed campaign` printed, one text or many, and says what the strikes showed.

    scripts/strikes.py FILE.. [--csv FILE] [--histogram FILE.svg] [--map FILE.svg] [--out OUT] [--seeds A-B] [--folder F]

Prints the totals, a histogram of the latencies (the steps from the last change until a check fired) against the bounds,
and a map: by place, and with --out, the output that was struck, by the block of the test that was running. The texts are
those of one test with the same options, each of one seed; a text that is not whole is named and not counted. With --seeds
the texts are F/seed-A.txt to F/seed-B.txt, and those that are missing or not whole are listed. --csv stores a row for each
strike. Exit status 1 where a text is not whole, missing, or its last line is not the sum of the others; 2 for words that do
not fit. Python's standard library alone; --out also takes the simulator of reference/.
"""

import argparse
import bisect
import csv
import os
import re
import signal
import sys
from collections import Counter

VERDICTS = ("fired", "ended", "same", "closed", "not reached")
COLOURS = {"fired": "#2a7f62", "ended": "#5d8aa8", "ended right": "#8fbcd4", "ended wrong": "#c0392b", "same": "#7f8c8d",
           "closed": "#d4ac0d", "not reached": "#d5d8dc"}
CHANGE = re.compile(r"step (\d+) (x\d+|0x[0-9a-f]{16})=(0x[0-9a-f]{16}) ")
LINE = re.compile(r"(\d+) ((?:step \d+ \S+ )+)(fired|ended|same|closed|not reached)(?: (\d+))?(?: (right|wrong))?")
LAST = re.compile(r"strikes (\d+), fired \d+, ended \d+( \(\d+ right, \d+ wrong\))?, same \d+, closed \d+, not reached \d+, longest \d+, "
                  r"register bound (\d+), word bound (\d+|none)")
BARS, WIDTH = 24, 50
MOST_STEPS = 1_000_000
FUNCTION = 2


class NotWhole(Exception):
    """A text that is no whole campaign, with the reason."""


class NoOutput(Exception):
    """The file of --out is not an output."""


class Strike:
    """One line: its changes, the verdict, the steps behind the last change, or None, and whether it ended right or wrong."""

    def __init__(self, line):
        found = LINE.fullmatch(line)
        self.changes = [(int(step), place, value) for step, place, value in CHANGE.findall(found[2])] if found else []
        if not self.changes or len(self.changes) != found[2].count("step "):
            raise NotWhole(f"no strike: {line!r}")
        self.number, self.verdict = int(found[1]), found[3]
        self.latency = int(found[4]) if found[4] else None
        self.result = found[5] or ""

    @property
    def shown(self):
        """What pictures show of it: the verdict, and of an end whether it was right."""
        return f"{self.verdict} {self.result}".rstrip()

    @property
    def has_word(self):
        """Whether a place is a data word: then the word bound holds."""
        return any(place.startswith("0x") for _, place, _ in self.changes)


def read(name):
    """The strikes of a text and its bounds, a register's and a word's."""
    try:
        with open(name, encoding="ascii") as file:
            lines = file.read().splitlines()
    except (OSError, UnicodeDecodeError) as error:
        raise NotWhole(getattr(error, "strerror", None) or "not text") from None
    last = LAST.fullmatch(lines[-1]) if lines else None
    if not last:
        if lines and lines[-1].startswith("slips "):
            raise NotWhole("about slips, not strikes")
        raise NotWhole(lines[-1] if lines and lines[-1].startswith("input trapped") else "no last line")
    strikes = [Strike(line) for line in lines[:-1]]
    if [strike.number for strike in strikes] != list(range(int(last[1]))):
        raise NotWhole("strikes are missing")
    bounds = int(last[3]), None if last[4] == "none" else int(last[4])
    if totals(strikes, bounds, bool(last[2])) != lines[-1]:
        raise NotWhole("the last line is not the sum of the others")
    return strikes, bounds


def totals(strikes, bounds, results):
    """The last line of a campaign, over all strikes."""
    counts = Counter(strike.verdict for strike in strikes)
    counts.update(strike.result for strike in strikes)
    longest = max((strike.latency for strike in strikes if strike.verdict == "fired"), default=0)
    told = {"ended": f" ({counts['right']} right, {counts['wrong']} wrong)"} if results else {}
    shown = ", ".join(f"{verdict} {counts[verdict]}{told.get(verdict, '')}" for verdict in VERDICTS)
    word = "none" if bounds[1] is None else bounds[1]
    return f"strikes {len(strikes)}, {shown}, longest {longest}, register bound {bounds[0]}, word bound {word}"


def bars(strikes, with_words, bound):
    """The latencies of strikes that fired, in equal parts up to the bound: (from, to, how many)."""
    latencies = [strike.latency for strike in strikes if strike.verdict == "fired" and strike.has_word == with_words]
    size = max(-(-bound // BARS), 1)
    counts = Counter(latency // size for latency in latencies)
    return [(i * size, min((i + 1) * size - 1, bound), counts[i]) for i in range(bound // size + 1)]


def histograms(strikes, bounds):
    """The histograms that there are: a title, the bound, the bars."""
    kinds = ((False, "registers", bounds[0]), (True, "data words", bounds[1]))
    return [(title, bound, bars(strikes, with_words, bound)) for with_words, title, bound in kinds
            if bound is not None and any(strike.has_word == with_words for strike in strikes)]


def print_histograms(strikes, bounds):
    """The histograms as text."""
    for title, bound, rows in histograms(strikes, bounds):
        print(f"\nlatency of {title}, bound {bound}")
        most = max(max(count for _, _, count in rows), 1)
        filled = max((i for i, row in enumerate(rows) if row[2]), default=0)
        for low, high, count in rows[:filled + 1]:
            print(f"{low:>7} .. {high:<7} {'#' * -(-count * WIDTH // most):<{WIDTH}} {count}")


def svg(width, height, parts):
    """An SVG picture."""
    return (f'<svg xmlns="http://www.w3.org/2000/svg" viewBox="0 0 {width} {height}" font-family="monospace" font-size="12">\n'
            f'<rect width="{width}" height="{height}" fill="white"/>\n' + "\n".join(parts) + "\n</svg>\n")


def text(x, y, words, more=""):
    """A line of text in a picture."""
    words = words.replace("&", "&amp;").replace("<", "&lt;")
    return f'<text x="{x}" y="{y}"{more}>{words}</text>'


def tick_step(most):
    """A round number, of which between two and five fit into most."""
    size = 10 ** max(len(str(most)) - 1, 0)
    return next(step for step in (size // 5 or 1, size // 2 or 1, size, 2 * size) if most // step <= 5)


def axes(top, most, last, bound):
    """The axes of a histogram: ticks with counts to the left and with steps below, and the bound."""
    parts = [f'<path d="M60 {top + 30}V{top + 170}H580" stroke="black" fill="none"/>']
    for count in range(0, most + 1, tick_step(most)):
        at = top + 170 - 140 * count / most
        parts += [f'<path d="M56 {at:.1f}H60" stroke="black"/>', text(52, f"{at + 4:.1f}", str(count), ' text-anchor="end"')]
    for steps in range(0, last + 1, tick_step(last)):
        at = 60 + 520 * steps / (last + 1)
        parts += [f'<path d="M{at:.1f} {top + 170}V{top + 174}" stroke="black"/>',
                  text(f"{at:.1f}", top + 188, str(steps), ' text-anchor="middle"')]
    end = 60 + 520 * bound / (last + 1)
    return parts + [f'<path d="M{end:.1f} {top + 30}V{top + 174}" stroke="#c0392b"/>',
                    text(f"{end - 4:.1f}", top + 40, f"bound {bound}", ' text-anchor="end"'),
                    text(580, top + 202, "steps from the last change to the check", ' text-anchor="end"')]


def histogram_svg(strikes, bounds):
    """The histograms as one picture; the bound is a line. Each bar's title has its steps and its count."""
    parts, top = [], 0
    for title, bound, rows in histograms(strikes, bounds):
        most, wide = max(max(count for _, _, count in rows), 1), 520 / len(rows)
        parts.append(text(20, top + 20, f"latency of {title}: {sum(count for _, _, count in rows)} checks fired"))
        for i, (low, high, count) in enumerate(rows):
            tall = 140 * count / most
            parts.append(f'<rect x="{60 + i * wide:.1f}" y="{top + 170 - tall:.1f}" width="{wide - 1:.1f}" height="{tall:.1f}" '
                         f'fill="{COLOURS["fired"]}"><title>{low} to {high} steps: {count}</title></rect>')
        parts += axes(top, most, rows[-1][1], bound)
        top += 220
    return svg(600, max(top, 40), parts)


def read_output(name):
    """An output as the reference reads it, and its pairs of a new and an input address, ascending."""
    sys.path.insert(0, os.path.join(os.path.dirname(os.path.abspath(__file__)), "..", "reference"))
    sys.dont_write_bytecode = True  # nothing is left in the folder of a package
    from elf import read_elf
    from texts import Exceeded, Refused
    try:
        with open(name, "rb") as file:
            data = file.read()
        read_file = read_elf(data)
        section = next(section for section in read_file.sections if section.name == b".qed.map")
    except OSError as error:
        raise NoOutput(f"{name}: {error.strerror}") from None
    except (StopIteration, Exceeded, Refused):
        raise NoOutput(f"{name} is not an output of `qed transform`") from None
    rows = data[section.offset:section.offset + section.size]
    return read_file, sorted((int.from_bytes(rows[i + 8:i + 16], "little"), int.from_bytes(rows[i:i + 8], "little"))
                             for i in range(0, len(rows), 16))


def names_of(read_file, entries):
    """The labels of the test by input address, ascending: where several are, a function's name."""
    old, found = dict(entries), {}
    for symbol in read_file.symbols:
        name = symbol.name.decode(errors="replace")
        if symbol.value in old and name and not name.startswith((".L", "$")):
            found.setdefault(old[symbol.value], []).append((symbol.type != FUNCTION, name))
    return sorted((address, min(names)[1]) for address, names in found.items())


def blocks_of(name, most):
    """Of an output: the pc before each step of its run, and for a pc the input address of its entry, with the nearest label."""
    read_file, entries = read_output(name)
    from machine import GOING, start
    names, places, hart = names_of(read_file, entries), [], start(read_file)
    while len(places) <= most and hart.outcome == GOING:
        places.append(hart.pc)
        hart.step()

    def block(pc):
        at = bisect.bisect_right(entries, (pc, 1 << 64)) - 1
        if at < 0:
            return "the start"
        old = entries[at][1]
        label = bisect.bisect_right(names, (old, chr(0x10FFFF))) - 1
        if label < 0:
            return f"0x{old:x}"
        behind = old - names[label][0]
        return f"0x{old:x} {names[label][1]}" + (f"+0x{behind:x}" if behind else "")
    return places, block


def last_step(strikes):
    """The greatest step of a last change, of those that a campaign makes."""
    return min(max((strike.changes[-1][0] for strike in strikes), default=0), MOST_STEPS)


def rows_of_map(strikes, ran=None):
    """The rows of the map: a title, and how often each verdict came, as pictures show it. A strike counts at its last change, at
    its place or, with what `blocks_of` returns, at the block that was running."""
    rows = {}
    for strike in strikes:
        step, place, _ = strike.changes[-1]
        if ran:
            places, block = ran
            title = block(places[step]) if step < len(places) else "behind the end"
        else:
            title = place if place.startswith("x") else "words"
        rows.setdefault(title, Counter())[strike.shown] += 1
    return sorted(rows.items(), key=lambda row: (not re.match(r"x|0x", row[0]), len(row[0].split()[0]), row[0]))


def print_map(rows):
    """The map as text."""
    wide = max((len(title) for title, _ in rows), default=0)
    print(f"\n{'struck':<{wide}} " + " ".join(f"{verdict:>11}" for verdict in VERDICTS))
    for title, counts in rows:
        columns = [sum(counts[shown] for shown in counts if shown.startswith(verdict)) for verdict in VERDICTS]
        print(f"{title:<{wide}} " + " ".join(f"{count:>11}" for count in columns))


def map_svg(rows, by_block):
    """The map as a picture: a bar for each row, with the share and, where there is room, the count of each verdict."""
    kinds = [kind for kind in COLOURS if any(counts[kind] for _, counts in rows)]
    parts, left = [text(20, 20, f"strikes by {'the block of the test that was running' if by_block else 'the place that changed'}")], 20
    for kind in kinds:
        parts += [f'<rect x="{left}" y="30" width="12" height="12" fill="{COLOURS[kind]}"/>', text(left + 16, 40, kind)]
        left += 34 + 8 * len(kind)
    for i, (title, counts) in enumerate(rows):
        top, left, all_of = 56 + 18 * i, 300.0, sum(counts.values())
        parts.append(text(290, top + 11, title if len(title) <= 38 else f"{title[:37]}…", ' text-anchor="end"'))
        for kind in kinds:
            wide = 340 * counts[kind] / all_of
            if wide:
                words = f"{title}: {kind} {counts[kind]} of {all_of}".replace("&", "&amp;").replace("<", "&lt;")
                parts.append(f'<rect x="{left:.1f}" y="{top}" width="{wide:.1f}" height="14" fill="{COLOURS[kind]}"><title>{words}</title></rect>')
            if wide > 8 * len(str(counts[kind])) + 4:
                parts.append(text(f"{left + 4:.1f}", top + 11, str(counts[kind])))
            left += wide
        parts.append(text(648, top + 11, str(all_of)))
    return svg(700, 66 + 18 * len(rows), parts)


def store(name, data):
    """Stores a text."""
    with open(name, "w", encoding="utf-8") as file:
        file.write(data)


def store_table(name, found):
    """A row for each strike."""
    with open(name, "w", encoding="ascii", newline="") as file:
        writer = csv.writer(file)
        writer.writerow(("text", "strike", "step", "place", "value", "changes", "verdict", "latency", "result"))
        for text_name, strikes in found:
            for strike in strikes:
                writer.writerow((text_name, strike.number, *strike.changes[-1], len(strike.changes), strike.verdict, strike.latency,
                                 strike.result))


def gathered(names):
    """The strikes of each text that is whole, the bounds, and what is wrong with the others."""
    found, bounds, wrong = [], None, []
    for name in names:
        try:
            strikes, these = read(name)
            if bounds not in (None, these):
                raise NotWhole("other bounds than the texts before it")
            bounds = these
            found.append((name, strikes))
        except NotWhole as error:
            wrong.append((name, error))
    return found, bounds, wrong


def add_texts(parser):
    """The words that name the texts."""
    parser.add_argument("files", nargs="*", metavar="FILE", help="a text that `qed campaign` printed")
    parser.add_argument("--seeds", metavar="A-B", help="read seed-A.txt to seed-B.txt too, and list those that are missing")
    parser.add_argument("--folder", metavar="F", default=".", help="the folder of the texts of --seeds (default: this one)")


def words():
    """The words of the call."""
    parser = argparse.ArgumentParser(description=__doc__.split("\n", 1)[0], epilog="Exit status: 1 if a text is missing or not whole.")
    add_texts(parser)
    parser.add_argument("--out", metavar="OUT", help="the output that was struck: the map is then by the block that was running")
    parser.add_argument("--csv", metavar="FILE", help="store a row for each strike")
    parser.add_argument("--histogram", metavar="FILE.svg", help="store the latencies against the bounds as an SVG picture")
    parser.add_argument("--map", metavar="FILE.svg", help="store the map as an SVG picture")
    given = parser.parse_args()
    for name in ("histogram", "map"):
        path = getattr(given, name)
        if path and not path.endswith(".svg"):
            parser.error(f"--{name} writes SVG: name it {os.path.splitext(path)[0]}.svg")
    add_seeds(parser, given)
    return given


def add_seeds(parser, given):
    """Adds the texts of --seeds to the files."""
    seeds = re.fullmatch(r"(\d+)-(\d+)", given.seeds or "0-0")
    if not seeds:
        parser.error("--seeds has the form A-B")
    if given.seeds:
        given.files += [os.path.join(given.folder, f"seed-{seed}.txt") for seed in range(int(seeds[1]), int(seeds[2]) + 1)]
    if not given.files:
        parser.error("no texts")


def main():
    """Reads the texts, and prints and stores what is asked for."""
    given = words()
    found, bounds, wrong = gathered(given.files)
    for name, error in wrong:
        print(f"not counted: {name}: {error}")
    if not found:
        return 1
    strikes = [strike for _, text_strikes in found for strike in text_strikes]
    ends = [strike for strike in strikes if strike.verdict == "ended"]
    print(totals(strikes, bounds, any(strike.result for strike in ends) and all(strike.result for strike in ends)))
    print_histograms(strikes, bounds)
    try:
        rows = rows_of_map(strikes, blocks_of(given.out, last_step(strikes)) if given.out else None)
    except NoOutput as error:
        print(f"strikes.py: {error}", file=sys.stderr)
        return 1
    print_map(rows)
    if given.csv:
        store_table(given.csv, found)
    if given.histogram:
        store(given.histogram, histogram_svg(strikes, bounds))
    if given.map:
        store(given.map, map_svg(rows, given.out))
    return int(bool(wrong))


if __name__ == "__main__":
    signal.signal(signal.SIGPIPE, signal.SIG_DFL)
    sys.exit(main())
