#!/usr/bin/env python3
"""Refuses each request for memory of a program in turn: refuse.py PROGRAM.

The program is run on each example that has a certificate, and on the texts beside this file. It ends as it does without, or says
that memory ran out, and never that an argument is not as it was before or that a candidate is lost."""
import os
import sys
import tempfile

from run import TOP, Job, end_of, library_in, sweep_all

HERE = os.path.dirname(os.path.abspath(__file__))
FILES = ("domain.hddl", "problem.hddl", "plan.txt", "certificate.txt")


def folders():
    yield f"{HERE}/wide"
    for entry in sorted(os.scandir(f"{TOP}/examples"), key=lambda it: it.name):
        if all(os.path.isfile(f"{entry.path}/{file}") for file in FILES):
            yield entry.path


def main():
    with tempfile.TemporaryDirectory() as folder:
        library = library_in(folder)
        jobs = [Job(sys.argv[1], os.path.basename(it), [f"{it}/{file}" for file in FILES], library, False) for it in folders()]
        for job in jobs:
            if end_of(job, 0)[0] != 0:
                sys.exit(f"{job.name}: no answer, though nothing was refused")
        failed = sweep_all(jobs)
    sys.exit(failed)


if __name__ == "__main__":
    main()
