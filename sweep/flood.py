#!/usr/bin/env python3
"""Gives the program names that all collide under the one hash that has a fixed start, that of hints.

sweep/flood.py PROGRAM

Objects are named so that the hints of all of them fall into one place, and :init speaks of each, from the last to the first, so that
none stands behind the one before it, where it would be found without a hint. The same number of names that do not collide is judged
beside them. Valgrind counts the instructions of both. Four times as many names may take at most five times as many,
and names that collide at most twice as many as others. The status is 0 where it is so. Wants gcc and valgrind."""

import os
import re
import subprocess
import sys
import tempfile

COUNTS = (25_000, 100_000)
MOST_GROWTH = 5
MOST_TIMES = 2

# Prints so many names of seven letters and digits whose hash, as src/hints.rt of hv_text has it, falls into the first of twice as many places.
FINDER = r"""
#include <stdint.h>
#include <stdio.h>
#include <stdlib.h>
int main(int argc, char **argv) {
    uint64_t wanted = strtoull(argv[1], 0, 10), found = 0;
    const char *letters = "abcdefghijklmnopqrstuvwxyz0123456789";
    for (uint64_t front = 0; found < wanted && front < 36 * 36 * 36 * 36 * 26; front++) {
        char name[8] = {0};
        uint64_t begun = 0, rest = front;
        for (int at = 0; at < 5; at++) {
            name[at] = letters[rest % 36];
            rest /= 36;
            begun = begun << 8 | (uint64_t)name[at];
        }
        for (const char *one = letters; *one; one++) {
            for (const char *two = letters; *two && found < wanted; two++) {
                uint64_t word = begun << 16 | (uint64_t)*one << 8 | (uint64_t)*two;
                uint64_t whole = (7 ^ word) * 0x9e3779b97f4a7c15u;
                if (((whole >> 32) * 2 * wanted) >> 32 == 0) {
                    name[5] = *one;
                    name[6] = *two;
                    puts(name);
                    found++;
                }
            }
        }
    }
    return found < wanted;
}
"""


def colliding(folder, count):
    finder = f"{folder}/finder"
    if not os.path.exists(finder):
        with open(f"{finder}.c", "w") as out:
            out.write(FINDER)
        subprocess.run(["gcc", "-O2", "-o", finder, f"{finder}.c"], check=True)
    return subprocess.run([finder, str(count)], check=True, capture_output=True, text=True).stdout.split()


def others(count):
    letters = "abcdefghijklmnopqrstuvwxyz"
    return ["".join(letters[number // 26**at % 26] for at in range(7)) for number in range(count)]


def instructions(program, folder, names):
    """The instructions that a judgement takes; None where the answer is another than it should be."""
    texts = {
        "domain.hddl": "(define (domain flood) (:predicates (p ?x)) (:action stay))\n",
        "problem.hddl": "(define (problem flood) (:domain flood) (:objects %s)\n(:htn :subtasks (stay)) (:init %s))\n"
        % (" ".join(names), "\n".join(f"(p {name})" for name in reversed(names))),
        "plan.txt": "==>\n1 stay\nroot 1\n<==\n",
    }
    for name, text in texts.items():
        with open(f"{folder}/{name}", "w") as out:
            out.write(text)
    command = ["valgrind", "--tool=callgrind", "--callgrind-out-file=/dev/null", program, "judge", *texts]
    ran = subprocess.run(command, cwd=folder, capture_output=True, text=True)
    counted = re.search(r"Collected : (\d+)", ran.stderr)
    return int(counted.group(1)) if counted and (ran.returncode, ran.stdout) == (0, "solves\n") else None


def main():
    program = os.path.abspath(sys.argv[1])
    with tempfile.TemporaryDirectory() as folder:
        found = [
            (instructions(program, folder, colliding(folder, count)), instructions(program, folder, others(count)))
            for count in COUNTS
        ]
    if None in sum(found, ()):
        sys.exit("another answer than solves")
    for count, (flooded, usual) in zip(COUNTS, found):
        print(f"{count} names: {flooded:,} instructions where they collide, {usual:,} where they do not")
    growth = found[1][0] / found[0][0]
    times = found[1][0] / found[1][1]
    print(f"{COUNTS[1] // COUNTS[0]} times as many that collide take {growth:.1f} times as many, {times:.1f} times as many as others")
    sys.exit(growth > MOST_GROWTH or times > MOST_TIMES)


main()
