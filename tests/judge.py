#!/usr/bin/env python3
"""Judges what cellar printed of the rows of faults, by the rows' rules alone: it knows nothing of how a guest is moved.

usage: tests/judge.py SCRIPT OUTPUT

From the events it keeps track of where the guest is, and refuses an event that cannot be: a stop where the guest does
not run, a resume of one that was not stopped, a fall of its host without its loss, a loss without that. What `where` was
answered must be where the guest is by then, and a row must end as the rule of its kind says.
Prints how often each kind of row ended in which way. At the first thing that is wrong it says what, and exits with 1.
"""

import re
import sys
from collections import Counter

# A row's commands between `anew` and `where`, joined by '; ', and what has to come of them.
KINDS = {
    "A": ("nothing goes wrong", r"move; round 300"),
    "B": ("host 1 falls", r"move; fall 1 (\d+) (before|after); round 600"),
    "C": ("host 0 falls", r"move; fall 0 (\d+) (before|after); round 600"),
    "D": ("a letter is lost", r"move; lose (\d+); round 600"),
    "E": ("an old letter comes again", r"move; round (\d+)(?:; again){5}; round 600"),
    "F": ("host 0 falls on the way back", r"move; round 300; move; fall 0 (\d+) (before|after); round 600"),
    "G": ("a busy guest", r"move(?:(?:; write \d+ \d+){32}; round 1){200}; round 600"),
    "H": ("anything goes wrong", r"move; any (\d+) 200"),
}


class Wrong(Exception):
    """What was printed cannot be, or is not what a row asks for."""


class Night:
    """Where the guest is, and what has happened since all began."""

    def __init__(self):
        self.place = "runs 0"
        self.events = []
        self.falls = []  # which host fell, and where the guest was then
        self.due = None  # the host that has just fallen with the guest on it: its loss is told next

    def event(self, line):
        """Something has happened."""
        self.events.append(line)
        if self.due is not None:
            if line != "lost":
                raise Wrong(f"host {self.due} fell with the guest, and then came '{line}'")
            self.place, self.due = f"lost {self.due}", None
            return
        what, _, host = line.partition(" ")
        if line not in ("stop 0", "stop 1", "resume 0", "resume 1", "fall 0", "fall 1"):
            raise Wrong(f"'{line}' cannot happen when it {self.place}")
        if what == "fall":
            self.falls.append((host, self.place))
            self.due = host if self.place == f"runs {host}" else None
        elif what == "stop":
            if self.place != f"runs {host}":
                raise Wrong(f"'{line}' of a guest that {self.place}")
            self.place = f"stands {host}"
        else:
            if not self.place.startswith("stands "):
                raise Wrong(f"'{line}' of a guest that {self.place}")
            self.place = f"runs {host}"

    def end(self, answer):
        """The script has asked where it is."""
        if self.due is not None:
            raise Wrong(f"host {self.due} fell with the guest, and its loss wasn't told")
        if answer != self.place:
            raise Wrong(f"'where' says '{answer}', and by the events it {self.place}")

    def lost_after_resume(self, host):
        """It was lost on that host, where it had been resumed."""
        return self.place == f"lost {host}" and f"resume {host}" in self.events


def ends_well(kind, night):
    """Whether a row of that kind may end like this."""
    if kind == "A":
        return night.events == ["stop 0", "resume 1"]
    if kind == "B":
        return night.place == "runs 1" or night.lost_after_resume("1")
    if kind == "C":
        may = {"runs 0": ["lost 0"], "stands 0": ["stands 0", "runs 1"], "runs 1": ["runs 1"]}
        return len(night.falls) <= 1 and night.place in may[night.falls[0][1] if night.falls else "runs 1"]
    if kind in "DEG":
        return night.place == "runs 1"
    if kind == "F":
        return night.place == "runs 0" or night.lost_after_resume("0")
    return True


def kind_of(row):
    """Which kind of row has these commands, and with which numbers."""
    text = "; ".join(row)
    for kind, (_, form) in KINDS.items():
        fits = re.fullmatch(form, text)
        if fits:
            return kind, fits.groups()
    raise Wrong(f"no row has these commands: {text[:100]}")


def is_busy(row):
    """Before each of the 200 rounds the guest writes each of its 32 pages."""
    pages = [int(line.split()[1]) for line in row if line.startswith("write ")]
    return all(sorted(pages[i : i + 32]) == list(range(32)) for i in range(0, len(pages), 32))


def rows_of(script):
    """Each row's kind, numbers and commands."""
    row = None
    for line in script:
        if line == "anew" and row is None:
            row = []
        elif line == "where" and row is not None:
            yield *kind_of(row), row
            row = None
        elif row is not None and line != "anew":
            row.append(line)
        else:
            raise Wrong(f"'{line}' is in no row")
    if row is not None:
        raise Wrong("the last row doesn't ask where the guest is")


def all_rows():
    """The kinds and numbers of all rows that there have to be."""
    yield "A", ()
    yield "G", ()
    for n in range(1, 401):
        yield from ((kind, (str(n), side)) for kind in "BCF" for side in ("before", "after"))
        yield from ((kind, (str(n),)) for kind in "DE")
    yield from (("H", (str(seed),)) for seed in range(1, 201))


def play(kind, row, lines):
    """Goes through what was printed of one row."""
    night = Night()
    refused = 0
    for line in lines:
        if re.fullmatch("(runs|stands|lost) [01]", line):
            night.end(line)
            break
        if line == "no":
            refused += 1
        else:
            night.event(line)
    else:
        raise Wrong("the output ends in the midst of a row")
    # Only a guest that doesn't run refuses to write; a wish is refused by none of these rows but on a way back.
    if refused > sum(line.startswith("write ") or (kind == "F" and line == "move") for line in row):
        raise Wrong("more was refused than could be")
    if not ends_well(kind, night):
        raise Wrong(f"in the end it {night.place}; what happened: {', '.join(night.events[-12:])}")
    return night.place


def judge(script, output):
    """Goes through both, line by line; how often each kind of row ended in which way."""
    rows = list(rows_of(script))
    if Counter((kind, numbers) for kind, numbers, _ in rows) != Counter(all_rows()):
        raise Wrong("these aren't all the rows, each once")
    ends = Counter()
    lines = iter(output)
    for kind, numbers, row in rows:
        try:
            if kind == "G" and not is_busy(row):
                raise Wrong("the guest isn't busy")
            ends[kind, play(kind, row, lines)] += 1
        except Wrong as wrong:
            raise Wrong(f"row {kind} {' '.join(numbers)}: {wrong}") from None
    if next(lines, None) is not None:
        raise Wrong("more was printed than the rows ask for")
    return ends


def main():
    if len(sys.argv) != 3:
        sys.exit(__doc__)
    script, output = (open(name, encoding="ascii").read().splitlines() for name in sys.argv[1:])
    try:
        ends = judge(script, output)
    except Wrong as wrong:
        print(f"refused: {wrong}")
        sys.exit(1)
    for (kind, place), n in sorted(ends.items()):
        print(f"{n:4}  {kind}, {KINDS[kind][0]}: {place}")


if __name__ == "__main__":
    main()
