#!/usr/bin/env python3
"""Plays at random, beyond the gate: every seed of `any` up to a number, and long scripts of all commands.

usage: tests/random_play.py [SEEDS [SCRIPTS [SEED]]]     10000 seeds and 2000 scripts of some 100 lines, if not said otherwise

The program, crates/trace, is built first if need be. It compares all pages at each resuming with what they were at the stop, and would say `wrong`. Here each
event has to be one that can be (see judge.py), each `where` has to answer where the guest is by then, and neither `wrong`
nor `late` may come. Prints how much happened.
"""

import pathlib
import random
import sys
from collections import Counter
from judge import Night, Wrong

sys.path.insert(0, str(pathlib.Path(__file__).resolve().parent.parent / "tools"))
from timeline import trace_of  # noqa: E402


def seeds(many):
    """A night of 200 rounds for each seed."""
    for seed in range(1, many + 1):
        yield ["move", f"any {seed} 200"]


def mixed(many, rng):
    """Long nights of all commands."""
    for _ in range(many):
        night = []
        for _ in range(rng.randint(20, 200)):
            night.append(rng.choice([
                "move", "move", "where", "again",
                f"round {rng.choice([1, 1, 2, 3, 5, 20, 60, 300])}", f"round {rng.randint(1, 9)}",
                f"write {rng.randrange(32)} {rng.getrandbits(64)}",
                f"fall {rng.randrange(2)} {rng.choice([1, 2, 3, 5, 9, 40, 90, 200, 1000])} {rng.choice(['before', 'after'])}",
                f"lose {rng.choice([1, 2, 3, 10, 34, 60])}",
                f"any {rng.getrandbits(64)} {rng.choice([1, 5, 50, 400])}",
            ]))
        yield night


def check(nights, output, counts):
    """Goes through what was printed; each night ends by a `where` of its own."""
    lines = iter(output)
    for commands in nights:
        night, asked = Night(), commands.count("where") + 1
        last_stop = None
        for line in lines:
            what = line.split(" ")[0]
            if what == "round":
                continue
            if what == "lose":
                counts["letters lost"] += 1
            elif what in ("runs", "stands") or (what == "lost" and line != "lost"):
                night.end(line)
                asked -= 1
                if asked == 0:
                    break
            elif line == "no":
                counts["refused"] += 1
            else:
                night.event(line)
                counts[{"stop": "stops", "resume": "resumings", "fall": "falls", "lost": "guests lost"}[what]] += 1
                if what == "stop":
                    last_stop = line[-1]
                if what == "resume" and line[-1] != last_stop:
                    counts["moves"] += 1
        else:
            raise Wrong("the output ends in the midst of a night")
        counts["nights"] += 1
    if next(lines, None) is not None:
        raise Wrong("more was printed than was asked for")


def main():
    args = sys.argv[1:]
    if len(args) > 3 or not all(arg.isdigit() for arg in args):
        sys.exit(__doc__)
    many, scripts, seed = (int(x) for x in args + ["10000", "2000", "1"][len(args) :])
    nights = [*seeds(many), *mixed(scripts, random.Random(seed))]
    counts = Counter({"again": sum(n.count("again") for n in nights)})
    for at in range(0, len(nights), 500):
        some = nights[at : at + 500]
        script = "".join("\n".join(["anew", *night, "where"]) + "\n" for night in some)
        try:
            check(some, trace_of(script).splitlines(), counts)
        except Wrong as wrong:
            sys.exit(f"in nights {at} to {at + len(some)}: {wrong}")
    print(", ".join(f"{n} {what}" for what, n in sorted(counts.items(), key=lambda x: -x[1])) + "; nothing wrong, nothing late")


if __name__ == "__main__":
    main()
