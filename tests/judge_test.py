#!/usr/bin/env python3
"""Tests the judge of the rows: it accepts what is stored, and refuses that where it is doctored.

usage: tests/judge_test.py SCRIPT OUTPUT
"""

import random
import re
import sys
from judge import Wrong, judge


def places(output, form):
    """The lines that fit a form, by number."""
    return [i for i, line in enumerate(output) if re.fullmatch(form, line)]


def without(i):
    return lambda output: output[:i] + output[i + 1 :]


def twice(i):
    return lambda output: output[: i + 1] + output[i:]


def instead(i, line):
    return lambda output: output[:i] + [line] + output[i + 1 :]


def before(i, line):
    return lambda output: output[:i] + [line] + output[i:]


def doctorings(output, rng):
    """What is changed, and how: each makes an output that cannot be, or that isn't what the rows ask for."""
    for i in rng.sample(places(output, "stop ."), 12):
        yield "a stop is left out", without(i)
        yield "it stops twice", twice(i)
        yield "it stops where it doesn't run", instead(i, "stop 1" if output[i] == "stop 0" else "stop 0")
    for i in rng.sample(places(output, "resume ."), 12):
        yield "it is resumed twice", twice(i)
        yield "it is resumed in both places", before(i, "resume 1" if output[i] == "resume 0" else "resume 0")
    for i in rng.sample(places(output, "lost"), 12):
        yield "a loss isn't told", without(i)
        yield "it is lost twice", twice(i)
        yield "a lost guest is resumed", before(i + 1, output[i - 1].replace("fall", "resume"))
        yield "it is lost without a fall", without(i - 1)
    for i in rng.sample(places(output, "(runs|stands|lost) ."), 12):
        word, host = output[i].split()
        yield "where says the other host", instead(i, f"{word} {1 - int(host)}")
        yield "where says something else", instead(i, f"{'stands' if word != 'stands' else 'runs'} {host}")
        yield "where isn't answered", without(i)
        yield "it is lost at last, without a fall", before(i, "lost")
        yield "something else is printed", before(i, rng.choice(["late", "wrong", "missed 1", "line 3?", "", "runs", "stop"]))
        yield "too much is refused", lambda output, i=i: output[:i] + ["no"] * 6401 + output[i:]
    yield "nothing at all", lambda output: []
    yield "the last row is missing", lambda output: output[: places(output, "(runs|stands|lost) .")[-2] + 1]
    yield "more than the rows", lambda output: output + ["stop 0"]
    yield "it never moves", lambda output: ["runs 0" if re.fullmatch("(runs|stands|lost) .", line) else line for line in output if not re.fullmatch("stop .|resume .|fall .|lost", line)]
    for i in places(output, "resume 1")[:1]:
        yield "a calm move goes back where it was", lambda output, i=i: output[:i] + ["resume 0", "runs 0"] + output[i + 2 :]


def scripts(script, rng):
    """Scripts that aren't the rows."""
    starts = places(script, "anew")
    for _ in range(10):
        i = rng.randrange(len(starts) - 1)
        yield "a row is missing", script[: starts[i]] + script[starts[i + 1] :]
    yield "a row is other", [line.replace("round 600", "round 599") for line in script]
    yield "the guest isn't busy", [line.replace("write 31 ", "write 30 ") for line in script]
    yield "a row isn't ended", script[:-1]


def is_refused(script, output):
    try:
        judge(script, output)
    except Wrong:
        return True
    return False


def main():
    if len(sys.argv) != 3:
        sys.exit(__doc__)
    script, output = (open(name, encoding="ascii").read().splitlines() for name in sys.argv[1:])
    judge(script, output)
    rng = random.Random(1)
    tried = 0
    for what, change in doctorings(output, rng):
        tried += 1
        if not is_refused(script, change(output)):
            sys.exit(f"not refused: {what}")
    for what, other in scripts(script, rng):
        tried += 1
        if not is_refused(other, output):
            sys.exit(f"a script that isn't refused: {what}")
    print(f"the judge accepts what is stored, and refuses {tried} doctored outputs and scripts")


if __name__ == "__main__":
    main()
