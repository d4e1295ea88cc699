#!/usr/bin/env python3
"""Measures the reading of problems by the program: `carcara check` of a problem and an empty proof.

Usage: bench/problem/run.py [ROUNDS]

Makes two kinds of texts, of 1 and of 10 MB (2^20 bytes): declarations and assertions; lets and macros. Prints for each
the least processor time of some rounds, how many MB are read in a second, and how many times the time of 10 MB is that of
1 MB. The time includes making the pool, which begins with the least 2^bits places, of 12 bits or more, that give one for each
four bytes of the problem and each thirty-two of the proof.
The program has to be built (`./carcara` does that).
"""

import os
import sys
import tempfile

HERE = os.path.dirname(os.path.abspath(__file__))
sys.path.insert(0, os.path.dirname(HERE))
from measure import seconds

PROGRAM = os.path.join(HERE, "..", "..", "crates", "carcara", "out", "carcara")
MB = 1 << 20
MOST_GROWTH = 12


def declarations(size):
    """Constants and functions, each followed by assertions on those before it."""
    yield "(set-logic QF_UFLIA)\n(declare-sort U 0)\n(declare-fun f0 (U) U)\n(declare-const u0 U)\n(declare-const x0 Int)\n"
    written, n = 0, 0
    while written < size:
        n += 1
        text = (
            f"(declare-fun f{n} (U) U)\n(declare-const u{n} U)\n(declare-const x{n} Int)\n"
            f"(assert (or (= u{n} (f{n} u{n - 1})) (not (= (f{n - 1} u{n}) u{n - 1}))))\n"
            f"(assert (=> (< x{n - 1} x{n}) (<= (+ x{n - 1} {n}) (* 2 x{n})) (distinct x{n} {n} (- x{n - 1}))))\n"
        )
        written += len(text)
        yield text


def lets(size):
    """Macros, and assertions of nested lets that use them."""
    yield "(set-logic QF_LIA)\n(declare-const x0 Int)\n(define-fun m0 ((x Int)) Int (+ x 1))\n"
    written, n = 0, 0
    while written < size:
        n += 1
        text = (
            f"(declare-const x{n} Int)\n"
            f"(define-fun m{n} ((x Int) (y Int)) Int (let ((z (+ x y))) (ite (< z {n}) (- z y) (m0 z))))\n"
            f"(assert (let ((a (m{n} x{n} {n})) (b (m0 x{n - 1}))) (let ((c (+ a b)) (d (* 3 a))) (let ((e (< c d))) (or e (= a b) (not (let ((e (= c d))) e)))))))\n"
        )
        written += len(text)
        yield text


def measured(folder, kind, size, rounds):
    """The size of a text, and the least time that the program takes to read it."""
    problem = os.path.join(folder, "problem.smt2")
    proof = os.path.join(folder, "empty.alethe")
    with open(problem, "w", encoding="ascii") as file:
        file.writelines(kind(size))
    open(proof, "w", encoding="ascii").close()
    times = []
    for _ in range(rounds):
        # No command reaches the empty clause, which is status 1.
        took, answer = seconds([PROGRAM, "check", proof, problem], status=1)
        if answer != "invalid\nno empty clause\n":
            sys.exit(f"unexpected answer: {answer}")
        times.append(took)
    return os.path.getsize(problem), min(times)


def main():
    rounds = int(sys.argv[1]) if len(sys.argv) > 1 else 3
    with tempfile.TemporaryDirectory() as folder:
        for title, kind in [("declarations", declarations), ("lets and macros", lets)]:
            small, short = measured(folder, kind, MB, rounds)
            large, long = measured(folder, kind, 10 * MB, rounds)
            print(
                f"{title:16} 1 MB {short:6.3f} s   10 MB {long:6.3f} s   {large / long / MB:6.1f} MB/s"
                f"   growth {long / short:5.1f} (at most {MOST_GROWTH})"
            )


main()
