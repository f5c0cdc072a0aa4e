#!/usr/bin/env python3
"""Writes the rows of faults as one script for cellar: each row begins anew and ends by asking where the guest is.

usage: tests/rows.py > crates/rows/stdin
"""


def rows():
    """Every row, as the list of its commands."""
    yield ["move", "round 300"]
    for n in range(1, 401):
        for side in ("before", "after"):
            yield ["move", f"fall 1 {n} {side}", "round 600"]
            yield ["move", f"fall 0 {n} {side}", "round 600"]
            yield ["move", "round 300", "move", f"fall 0 {n} {side}", "round 600"]
        yield ["move", f"lose {n}", "round 600"]
        yield ["move", f"round {n}"] + ["again"] * 5 + ["round 600"]
    busy = ["move"]
    for k in range(200):
        busy += [f"write {page} {k * 32 + page}" for page in range(32)] + ["round 1"]
    yield busy + ["round 600"]
    for seed in range(1, 201):
        yield ["move", f"any {seed} 200"]


def main():
    for row in rows():
        print("\n".join(["anew"] + row + ["where"]))


if __name__ == "__main__":
    main()
