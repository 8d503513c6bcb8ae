#!/usr/bin/env python3
"""Makes one HTML page of what `qed campaign --results` printed, one text or many.

    scripts/report.py FILE.. [-o report.html] [--seeds A-B] [--folder F] [--in IN [--program PROGRAM] [OPTION of transform..]]

The page needs no network. It has the totals with confidence intervals (Wilson, 95 %), the latencies on a logarithmic axis with
quantiles and the bound, and what came of corruption by the place that changed, those that ended wrong most often first. With
--in, the test that was struck, and the options of the campaign, it also has a table by function and source line, names of data,
and a map by block. The texts are those that scripts/strikes.py takes. Exit status 1 if a text is not whole or missing, 2 for
words and files that do not fit. Python's standard library alone; --in also takes the reader and simulator of reference/.
"""

import argparse
import html
import math
import os
import re
import signal
import sys
import tempfile
from collections import Counter, namedtuple

sys.dont_write_bytecode = True  # nothing is left in the folder of a package
from explained import Lines, Names, Stop, Words, add_options, lines_of, options_of, read_test, said
from strikes import COLOURS, VERDICTS, add_seeds, add_texts, blocks_of, gathered, last_step, map_svg, rows_of_map, svg, text

MEANINGS = {"fired": "a check fired", "ended": "the test ended first", "ended right": "the test ended first, with the right values",
            "ended wrong": "the test ended first, with a wrong value and no check", "same": "the change was gone within the bound",
            "closed": "the place was closed, so nothing ran", "not reached": "the test had ended before"}
QUANTILES = (50, 90, 99, 100)
NORMAL = 1.959964  # the quantile 97.5 % of the normal distribution
GROWTH = 1.25
MOST_ROWS = 200
PARTS = {"start": "the start", "stub": "the stub", "check": "the check", "look-up": "the check", "sweep": "the end", "end": "the end"}
BOUNDS = re.compile(r"register bound (\d+), word bound (\d+|none)")
STYLE = """body { font: 15px/1.4 sans-serif; max-width: 60em; margin: 2em auto; padding: 0 1em; color: #222 }
h1, h2 { font-weight: 600 } h2 { margin-top: 2em } svg { max-width: 46em; width: 100%; height: auto }
table { border-collapse: collapse } th, td { padding: 0.15em 0.8em; border-bottom: 1px solid #ddd; text-align: right; white-space: nowrap }
th { background: #f4f4f4; font-weight: 600 } .name { text-align: left }
.wide { overflow-x: auto }"""

# A row of a table: its name in one or two cells, and how often each verdict came.
Row = namedtuple("Row", "cells counts")


def wilson(count, total):
    """The interval of Wilson's score for a share, with a confidence of 95 %."""
    if not total:
        return 0.0, 1.0
    share, square = count / total, NORMAL * NORMAL
    middle = (share + square / (2 * total)) / (1 + square / total)
    half = NORMAL / (1 + square / total) * math.sqrt(share * (1 - share) / total + square / (4 * total * total))
    return max(middle - half, 0.0), min(middle + half, 1.0)


def percent(share):
    """A share as a text, with three digits."""
    return f"{100 * share:.3g} %" if share > 1e-6 else "0 %"


def interval(count, total):
    """The interval of a share as a text."""
    return " to ".join(map(percent, wilson(count, total)))


def quantile(latencies, percentage):
    """The least latency that so many of 100 do not exceed, of ascending latencies."""
    return latencies[max(math.ceil(len(latencies) * percentage / 100) - 1, 0)]


# Tables

def table(heads, rows):
    """A table: its heads, and rows of cells. Cells that are texts stand to the left."""
    def cell(tag, content, is_name):
        name = ' class="name"' if is_name else ""
        return f"<{tag}{name}>{html.escape(str(content))}</{tag}>"
    names = [isinstance(content, str) and not re.match(r"[\d.]+( %|$)", content) for content in (rows[0] if rows else heads)]
    lines = ["<tr>" + "".join(cell("th", head, name) for head, name in zip(heads, names)) + "</tr>"]
    lines += ["<tr>" + "".join(cell("td", content, name) for content, name in zip(row, names)) + "</tr>" for row in rows]
    return '<div class="wide"><table>\n' + "\n".join(lines) + "\n</table></div>"


def kinds_of(strikes):
    """The verdicts as the tables show them: an end is right or wrong if all texts say so."""
    ends = {strike.shown for strike in strikes if strike.verdict == "ended"}
    shown = ("ended",) if "ended" in ends or not ends else ("ended right", "ended wrong")
    return [kind for verdict in VERDICTS for kind in (shown if verdict == "ended" else (verdict,))]


def kind_of(strike, kinds):
    """The verdict of a strike as the tables show it."""
    return strike.shown if strike.shown in kinds else strike.verdict


def totals_table(strikes, kinds):
    """How often each verdict came, with its share and interval."""
    counts = Counter(kind_of(strike, kinds) for strike in strikes)
    rows = [(kind, counts[kind], percent(counts[kind] / len(strikes)), interval(counts[kind], len(strikes)), MEANINGS[kind]) for kind in kinds]
    return table(("verdict", "strikes", "share", "95 % interval", "meaning"), rows)


def table_of(strikes, kinds, heads, cells_of):
    """The verdicts by what `cells_of` says of a strike, those first of which the most ended wrong."""
    rows = {}
    for strike in strikes:
        rows.setdefault(cells_of(strike), Counter())[kind_of(strike, kinds)] += 1
    worst = "ended wrong" if "ended wrong" in kinds else "ended"
    order = sorted(rows.items(), key=lambda row: (-row[1][worst], -sum(row[1].values()), row[0]))
    there = [kind for kind in kinds if any(counts[kind] for counts in rows.values())]
    shown = [(*cells, sum(counts.values()), *(counts[kind] for kind in there), percent(counts[worst] / sum(counts.values())),
              interval(counts[worst], sum(counts.values()))) for cells, counts in order[:MOST_ROWS]]
    more = f"<p>{len(order) - MOST_ROWS} more rows, with fewer that {worst}, are left out.</p>" if len(order) > MOST_ROWS else ""
    return table((*heads, "strikes", *there, f"share {worst}", "95 % interval"), shown) + more


# Latencies

def log_bars(latencies, bound):
    """The latencies in parts that grow: (from, to, how many)."""
    edges = [0]
    while edges[-1] <= bound:
        edges.append(max(edges[-1] + 1, int((edges[-1] + 1) * GROWTH)))
    counts = Counter()
    at = 0
    for latency in latencies:
        while latency >= edges[at + 1]:
            at += 1
        counts[at] += 1
    return [(low, high - 1, counts[at]) for at, (low, high) in enumerate(zip(edges, edges[1:]))]


def latency_svg(title, latencies, bound):
    """The latencies on a logarithmic axis, with quantiles and the bound."""
    bars = log_bars(latencies, bound)
    most, last = max(count for _, _, count in bars), math.log10(bars[-1][1] + 2)

    def x(steps):
        return 60 + 600 * math.log10(steps + 1) / last
    parts = [text(20, 20, f"latency of {title}: {len(latencies)} checks fired"), '<path d="M60 40V220H660" stroke="black" fill="none"/>']
    for low, high, count in bars:
        tall = 170 * count / most
        parts.append(f'<rect x="{x(low):.1f}" y="{220 - tall:.1f}" width="{max(x(high + 1) - x(low) - 1, 1):.1f}" height="{tall:.1f}" '
                     f'fill="{COLOURS["fired"]}"><title>{low} to {high} steps: {count}</title></rect>')
    digits = (1, 3) if bound < 10000 else (1,)
    ticks = [0] + [digit * 10 ** power for power in range(len(str(bound))) for digit in digits if digit * 10 ** power <= bound]
    for steps in ticks:
        parts += [f'<path d="M{x(steps):.1f} 220V224" stroke="black"/>', text(f"{x(steps):.1f}", 238, str(steps), ' text-anchor="middle"')]
    parts += [text(52, 54, str(most), ' text-anchor="end"'), text(52, 224, "0", ' text-anchor="end"'),
              text(660, 254, "steps from the last change to the check", ' text-anchor="end"')]
    for row, percentage in enumerate(QUANTILES[:-1]):
        at = x(quantile(latencies, percentage))
        parts += [f'<path d="M{at:.1f} {40 + 14 * row}V220" stroke="#555" stroke-dasharray="3 3"/>',
                  text(f"{at + 3:.1f}", 48 + 14 * row, f"{percentage} %")]
    parts += [f'<path d="M{x(bound):.1f} 40V224" stroke="#c0392b"/>', text(f"{x(bound) - 4:.1f}", 36, f"bound {bound}", ' text-anchor="end"')]
    return svg(680, 262, parts)


def latencies(strikes, bounds):
    """The part of the page on latencies."""
    parts, rows = [], []
    for with_words, title, bound in ((False, "registers", bounds[0]), (True, "data words", bounds[1])):
        found = sorted(strike.latency for strike in strikes if strike.verdict == "fired" and strike.has_word == with_words)
        if found and bound is not None:
            parts.append(latency_svg(title, found, bound))
            rows.append((title, len(found), *(quantile(found, percentage) for percentage in QUANTILES), bound))
    heads = ("changes of", "fired", *(f"{percentage} %" if percentage < 100 else "longest" for percentage in QUANTILES), "bound")
    return "\n".join([*parts, table(heads, rows)] if rows else ["<p>No check fired.</p>"])


# The test

class Struck:
    """The test that was struck: where its output stood at each step, and the names of these places."""

    def __init__(self, given, strikes, bounds):
        options = options_of(given)
        file = read_test(given.test)
        self.names, self.lines = Names(file), Lines(given.test, file)
        self.words = Words(given.program, given.test, options)
        with tempfile.TemporaryDirectory() as folder:
            out = os.path.join(folder, "out.elf")
            found = BOUNDS.search("".join(lines_of(said(given.program, "transform", given.test, out, *options))))
            if not found or (found[1], found[2]) != tuple(str(bound).lower() for bound in bounds):
                raise Stop(f"the campaign was not of {given.test} with these options: its bounds are {bounds[0]} and "
                           f"{str(bounds[1]).lower()}, these make {' and '.join(found.groups()) if found else 'none'}")
            self.ran = blocks_of(out, last_step(strikes))
        self.lines.look_up({address for pc in set(self.ran[0]) for address in self.words[pc].addresses[-1:]})

    def code(self, strike):
        """The function and the line at which a strike came, or what stands there if no instruction of the test does."""
        step = strike.changes[-1][0]
        if step >= len(self.ran[0]):
            return "behind the end", ""
        word = self.words[self.ran[0][step]]
        if not word.addresses:
            return PARTS[word.place or word.role], ""
        address = word.addresses[-1]
        return self.names.function(address) or "no name", self.lines.line(address) or self.names.place(address) or f"0x{address:x}"

    def place(self, strike):
        """The register that changed, or the object of the data word."""
        place = strike.changes[-1][1]
        return (place if place.startswith("x") else self.names.object(int(place, 16))[0] or "data without a name",)


def place_of(strike):
    """The register that changed, or that it was a data word."""
    place = strike.changes[-1][1]
    return (place if place.startswith("x") else "data words",)


def page(given, found, bounds, wrong):
    """The page."""
    strikes = [strike for _, text_strikes in found for strike in text_strikes]
    kinds = kinds_of(strikes)
    struck = Struck(given, strikes, bounds) if given.test else None
    title = f"Campaign of {os.path.basename(given.test)}" if given.test else "Campaign"
    word = "none" if bounds[1] is None else bounds[1]
    about = f"{len(strikes)} strikes in {len(found)} text{'s' * (len(found) > 1)}; register bound {bounds[0]}, word bound {word}, in steps of the output."
    if given.test and options_of(given):
        about += f" Options: {' '.join(options_of(given))}."
    if "ended" in kinds:
        about += " The campaign was made without --results, so no end is right or wrong."
    parts = [f"<h1>{html.escape(title)}</h1>\n<p>{html.escape(about)}</p>"]
    if wrong:
        parts.append("<h2>Not counted</h2>\n" + table(("text", "reason"), [(name, str(error)) for name, error in wrong]))
    parts += ["<h2>Totals</h2>", totals_table(strikes, kinds), "<h2>Latency</h2>", latencies(strikes, bounds)]
    if struck:
        parts += ["<h2>By function and line</h2>\n<p>Where the output stood when the last change of a strike came.</p>",
                  table_of(strikes, kinds, ("function", "line or place"), struck.code)]
    parts += ["<h2>By what changed</h2>", table_of(strikes, kinds, ("register or data",), struck.place if struck else place_of)]
    parts += ["<h2>Maps</h2>", map_svg(rows_of_map(strikes), False)]
    if struck:
        parts.append(map_svg(rows_of_map(strikes, struck.ran), True))
        parts += [f"<p>{html.escape(struck.lines.note)}.</p>"] if struck.lines.note else []
    return (f'<!DOCTYPE html>\n<html lang="en">\n<head>\n<meta charset="utf-8">\n<title>{html.escape(title)}</title>\n<style>\n{STYLE}\n</style>\n'
            "</head>\n<body>\n" + "\n".join(parts) + "\n</body>\n</html>\n")


def words():
    """The words of the call."""
    parser = argparse.ArgumentParser(description=__doc__.split("\n", 1)[0], allow_abbrev=False,
                                     epilog="Exit status: 1 if a text is missing or not whole; 2 for words and files that do not fit.")
    add_texts(parser)
    parser.add_argument("-o", dest="page", metavar="FILE.html", default="report.html", help="the page (default: report.html)")
    parser.add_argument("--in", dest="test", metavar="IN", help="the test that was struck, for the table by function and line")
    add_options(parser)
    given = parser.parse_args()
    add_seeds(parser, given)
    if options_of(given) and not given.test:
        parser.error("options of transform go with --in")
    return given


def main():
    """Reads the texts, and stores the page."""
    given = words()
    found, bounds, wrong = gathered(given.files)
    if not found:
        raise Stop(f"{wrong[0][0]}: {wrong[0][1]}" + (f", and {len(wrong) - 1} more texts" if len(wrong) > 1 else ""))
    if not any(strikes for _, strikes in found):
        raise Stop("the texts have no strike")
    for name, error in wrong:
        print(f"report.py: not counted: {name}: {error}", file=sys.stderr)
    made = page(given, found, bounds, wrong)
    try:
        with open(given.page, "w", encoding="utf-8", errors="replace") as file:
            file.write(made)
    except OSError as error:
        raise Stop(f"{given.page}: {error.strerror}") from None
    return int(bool(wrong))


if __name__ == "__main__":
    signal.signal(signal.SIGPIPE, signal.SIG_DFL)
    try:
        sys.exit(main())
    except Stop as stop:
        print(f"report.py: {stop}", file=sys.stderr)
        sys.exit(2)
