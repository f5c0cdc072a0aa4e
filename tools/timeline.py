#!/usr/bin/env python3
"""Draws a play as a timeline: rounds from left to right, a lane for each host.

usage: tools/timeline.py [SCRIPT] > night.svg     a script as cellar reads it; standard input if none is named
       tools/timeline.py --trace [FILE] > night.svg     what crates/trace has printed

A bar shows where the guest is: full where it runs, outlined where it stands. Marks show stops, resumptions, falls, the
loss of the guest, letters that were lost on their way (on the lane of who sent them), and rounds that were late.
"""

import pathlib
import re
import subprocess
import sys
from xml.sax.saxutils import escape

ROOT = pathlib.Path(__file__).resolve().parent.parent
TRACE = ROOT / "crates" / "trace" / "out" / "trace"
LEFT, LANE, TOP, BAR = 70, 46, 30, 14
RUNS, STANDS, LOST, FALL, LETTER = "#2b6cb0", "#bee3f8", "#9b2c2c", "#e53e3e", "#718096"


def trace_of(script):
    """What the program tells of a script; it is built first if need be."""
    sources = [ROOT / "crates.txt", *ROOT.glob("crates/*/src/*.rt"), *ROOT.glob("crates/*/specs/*.antt")]
    if not TRACE.exists() or any(s.stat().st_mtime > TRACE.stat().st_mtime for s in sources):
        subprocess.run(["rt", "run"], cwd=TRACE.parent.parent, stdin=subprocess.DEVNULL, stdout=sys.stderr, check=True)
        TRACE.touch()
    return subprocess.run([TRACE], input=script, capture_output=True, check=True, text=True).stdout


class Night:
    """What happened from one beginning of all to the next: the round of each event."""

    def __init__(self):
        self.rounds = 0
        self.events = []  # (round, what, host), host None where there is none


def nights_of(lines):
    """The nights that a trace tells of: in each the rounds are counted from 1."""
    nights = [Night()]
    for line in lines:
        found = re.fullmatch(r"round (\d+)", line)
        if found:
            number = int(found[1])
            if number <= nights[-1].rounds:
                nights.append(Night())
            nights[-1].rounds = number
            continue
        found = re.fullmatch(r"(stop|resume|fall|lose) ([01])|(lost|late|wrong)", line)
        if found:
            nights[-1].events.append((nights[-1].rounds, found[1] or found[3], found[2] and int(found[2])))
    return nights


def bars(night):
    """Where the guest is: (host, from, to, 'runs' or 'stands'), in rounds."""
    host, how, since = 0, "runs", 0
    for at, what, which in night.events:
        if what not in ("stop", "resume", "lost"):
            continue
        if how:
            yield host, since, at, how
        if what == "stop":
            host, how, since = which, "stands", at
        elif what == "resume":
            host, how, since = which, "runs", at
        else:
            how = None
    if how:
        yield host, since, night.rounds + 1, how


def mark(x, y, what):
    """The mark of an event on its lane."""
    if what == "fall":
        return f'<path d="M{x - 6} {y - 20} h12 l-6 11 z" fill="{FALL}"/>'
    if what == "lost":
        return f'<path d="M{x - 6} {y - 6} l12 12 m0 -12 l-12 12" stroke="{LOST}" stroke-width="3"/>'
    if what == "lose":
        return f'<path d="M{x} {y + 9} v7" stroke="{LETTER}" stroke-width="2"/>'
    if what == "stop":
        return f'<path d="M{x} {y - 9} v18" stroke="black" stroke-width="2"/>'
    if what == "resume":
        return f'<path d="M{x - 4} {y - 7} l9 7 l-9 7 z" fill="black"/>'
    return f'<text x="{x}" y="{y - 24}" fill="{LOST}" text-anchor="middle">{what}</text>'


def panel(night, step, top):
    """One night, from `top` down."""
    out = []
    lane = lambda host: top + TOP + LANE * host + LANE // 2  # noqa: E731
    place = lambda at: round(LEFT + at * step, 1)  # noqa: E731
    end = place(night.rounds + 1)
    every = next(n for n in (1, 2, 5, 10, 20, 50, 100, 200, 500, 1000, 10**9) if n * step >= 40)
    for at in range(0, night.rounds + 1, every):
        out.append(f'<path d="M{place(at)} {top + TOP} v{2 * LANE}" stroke="#e2e8f0"/>')
        out.append(f'<text x="{place(at)}" y="{top + TOP - 6}" text-anchor="middle" fill="#4a5568">{at}</text>')
    for host in (0, 1):
        out.append(f'<text x="8" y="{lane(host) + 4}">host {host}</text>')
        out.append(f'<path d="M{LEFT} {lane(host)} H{end}" stroke="#a0aec0"/>')
    for host, since, to, how in bars(night):
        wide = max(place(to) - place(since), 1.5)
        out.append(f'<rect x="{place(since)}" y="{lane(host) - BAR // 2}" width="{wide}" height="{BAR}" fill="{RUNS if how == "runs" else STANDS}" stroke="{RUNS}"/>')
    last = None
    for at, what, host in night.events:
        last = host if what == "fall" else last
        host = last if what == "lost" else host
        out.append(mark(place(at), lane(host or 0), what))
    return out


def draw(nights):
    """The whole picture."""
    most = max(night.rounds for night in nights)
    step = max(min(24, 1500 / (most + 1)), 0.5)
    high = TOP + 2 * LANE + 14
    width, height = max(round(LEFT + (most + 1) * step + 20), 760), high * len(nights) + 34
    out = [f'<svg xmlns="http://www.w3.org/2000/svg" width="{width}" height="{height}" font-family="sans-serif" font-size="12">', f'<rect width="{width}" height="{height}" fill="white"/>']
    for number, night in enumerate(nights):
        out += panel(night, step, number * high)
    x, y = LEFT, height - 14
    for what, words in (("runs", "runs"), ("stands", "stands"), ("stop", "stops"), ("resume", "resumes"), ("fall", "falls"), ("lost", "is lost"), ("lose", "a letter is lost")):
        if what in ("runs", "stands"):
            out.append(f'<rect x="{x - 8}" y="{y - BAR // 2}" width="16" height="{BAR}" fill="{RUNS if what == "runs" else STANDS}" stroke="{RUNS}"/>')
        else:
            out.append(mark(x, y + (14 if what == "fall" else -12 if what == "lose" else 0), what))
        out.append(f'<text x="{x + 14}" y="{y + 4}">{escape(words)}</text>')
        x += 30 + 8 * len(words)
    return "\n".join([*out, "</svg>"])


def main():
    args = sys.argv[1:]
    from_trace = args[:1] == ["--trace"]
    args = args[1:] if from_trace else args
    if len(args) > 1 or (args and args[0].startswith("-")):
        sys.exit(__doc__)
    text = open(args[0], encoding="utf-8").read() if args else sys.stdin.read()
    print(draw(nights_of((text if from_trace else trace_of(text)).splitlines())))


if __name__ == "__main__":
    main()
