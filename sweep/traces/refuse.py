#!/usr/bin/env python3
"""Refuses each request for memory of a program in turn: refuse.py PROGRAM.

The program ends as it does without, or says that memory ran out, and never that a state is not as it was before."""
import os
import sys
import tempfile

from run import TOP, Job, library_in, sweep_all

HERE = os.path.dirname(os.path.abspath(__file__))


def main():
    texts = [("yard", f"{HERE}/yard.hddl", f"{HERE}/yard-problem.hddl")]
    texts += [(name, *(f"{TOP}/examples/{name}/{file}.hddl" for file in ("domain", "problem"))) for name in ("flip", "two")]
    with tempfile.TemporaryDirectory() as folder:
        library = library_in(folder)
        failed = sweep_all([Job(sys.argv[1], name, words, library, False) for name, *words in texts])
    sys.exit(failed)


if __name__ == "__main__":
    main()
