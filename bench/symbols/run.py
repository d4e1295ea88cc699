#!/usr/bin/env python3
"""Measures the table of symbols against a `HashMap<Vec<u8>, u32>` of Rust's std on the same names.

Usage: bench/symbols/run.py [ROUNDS]

Builds crates/bench_parts by `rt run` and baseline.rs by `rustc -O`, runs each case in turn, and prints the least
processor time of a million declarations, of five million look-ups, and of both together, with their ratios.
"""

import os
import sys
import tempfile

HERE = os.path.dirname(os.path.abspath(__file__))
sys.path.insert(0, os.path.dirname(HERE))
from measure import PROGRAM, build, least_times

COUNT = 1_000_000


def main():
    rounds = int(sys.argv[1]) if len(sys.argv) > 1 else 5
    with tempfile.TemporaryDirectory() as folder:
        baseline = os.path.join(folder, "baseline")
        build(["symbols", "none", "1"], os.path.join(HERE, "baseline.rs"), baseline)
        programs = {"table": [PROGRAM, "symbols"], "baseline": [baseline]}
        declare, both = (
            least_times({name: program + [case, str(COUNT)] for name, program in programs.items()}, rounds)
            for case in ("declare", "find")
        )
    for title, took in [
        ("1M declarations", declare),
        ("5M look-ups", {name: both[name] - declare[name] for name in both}),
        ("both", both),
    ]:
        table, plain = took["table"] * 1000, took["baseline"] * 1000
        print(f"{title:16} table {table:7.0f} ms   HashMap {plain:7.0f} ms   ratio {table / plain:.2f}")


main()
