#!/usr/bin/env python3
"""Measures the pool of pairs, and the terms in it, against a plain Rust table of the same words.

Usage: bench/pool/run.py [ROUNDS]

Builds crates/bench_parts by `rt run` and baseline.rs by `rustc -O`, runs each case in turn, and prints the least
processor time of a call in nanoseconds for both, and their ratio. What a case does before the measured calls is run as a case
of its own and taken off. A build is of a million applications of functions of 1 to 4 arguments in turn, each to terms
before it; a view reads the head, the number of arguments and each argument in turn of all of them, and the baseline
reads them by the same walks; a count meets each cell of all of them once. The last table has the pool's time for a find
at several loads beside the mean number of words that such a find looks at.
"""

import os
import sys
import tempfile

HERE = os.path.dirname(os.path.abspath(__file__))
sys.path.insert(0, os.path.dirname(HERE))
from measure import PROGRAM, build, least_times, seconds

COUNT = 1 << 23
TERMS = 1_000_000

# (name, topic, bits, the case measured, the case taken off, calls)
CASES = [
    ("intern 8M pairs of leaves", "pool", 24, "pairs", "none", COUNT),
    ("find 8M pairs", "pool", 24, "finds", "pairs", COUNT),
    ("chain of 8M pairs", "pool", 24, "chain", "none", COUNT),
    ("parts of 8M cells", "pool", 24, "parts", "chain", COUNT),
    ("build 1M terms", "terms", 23, "build", "none", TERMS),
    ("view 1M terms", "terms", 23, "view", "build", TERMS),
    ("count cells of 1M terms", "terms", 23, "cells", "build", TERMS),
]


def commands(baseline, topic, case, bits, count):
    """The commands of both programs for a case; the baseline's topic is the pool where none is named."""
    words = [case, str(bits), str(count)]
    return {"pool": [PROGRAM, topic] + words, "baseline": [baseline] + (["terms"] if topic == "terms" else []) + words}


def main():
    rounds = int(sys.argv[1]) if len(sys.argv) > 1 else 5
    with tempfile.TemporaryDirectory() as folder:
        baseline = os.path.join(folder, "baseline")
        build(["pool", "none", "12", "1"], os.path.join(HERE, "baseline.rs"), baseline)
        print(f"{'case':28} {'pool ns':>9} {'Rust ns':>9} {'ratio':>6}")
        for name, topic, bits, case, before, calls in CASES:
            whole = least_times(commands(baseline, topic, case, bits, calls), rounds)
            part = least_times(commands(baseline, topic, before, bits, calls), rounds)
            took = {p: (whole[p] - part[p]) * 1e9 / calls for p in whole}
            print(f"{name:28} {took['pool']:9.1f} {took['baseline']:9.1f} {took['pool'] / took['baseline']:6.2f}")
        print(f"\n{'load of 2^24 words':28} {'pool ns':>9} {'Rust ns':>9} {'probes':>7}")
        for percent in (25, 50, 60, 70):
            count = (1 << 24) * percent // 100
            whole = least_times(commands(baseline, "pool", "chain", 24, count), rounds)
            none = least_times(commands(baseline, "pool", "none", 24, count), rounds)
            took = {p: (whole[p] - none[p]) * 1e9 / count for p in whole}
            _, probes = seconds([baseline, "probes", "24", str(count)])
            print(f"chain, {percent} per cent{'':11} {took['pool']:9.1f} {took['baseline']:9.1f} {probes.split()[1]:>7}")


if __name__ == "__main__":
    main()
