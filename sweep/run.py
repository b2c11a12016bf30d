#!/usr/bin/env python3
"""Refuses each request for memory of a run in turn, and looks at how the program ends.

A run whose request was refused must end as it does without, or with status 5 and its line on standard error, and nothing else
written. So is each command looked at over every example, over every row of crates/hv_row_tests/data and in a world of many types; and
over a plan of contest size, where each of the first thousand requests is refused, and then each hundredth. The last line counts all
runs.
Wants gcc and the built program: sweep/run.py [PROGRAM]."""

import collections
import multiprocessing
import os
import random
import re
import subprocess
import sys
import tempfile

import typed

TOP = os.path.dirname(os.path.dirname(os.path.abspath(__file__)))
PROGRAM = os.path.abspath(sys.argv[1] if len(sys.argv) > 1 else f"{TOP}/crates/hddlv/out/hddlv")
ROWS = f"{TOP}/crates/hv_row_tests/data"
OUT_OF_MEMORY = (5, b"", b"hddlv: out of memory\n")
NAMES = ("domain", "problem", "plan", "certificate")
# the texts that a command reads
READS = {"judge": NAMES[:3], "recheck": NAMES, "print-domain": NAMES[:1], "print-problem": NAMES[1:2], "print-plan": NAMES[2:3]}

Job = collections.namedtuple("Job", "program name words library is_sampled")


def write(path, text):
    with open(path, "wb") as out:
        out.write(text)
    return path


def commands(folder, files):
    """Each command over a domain, a problem and a plan, and over the certificate of that plan, if it has one."""
    domain, problem, plan = files
    judged = ["judge", "--explain", domain, problem, plan]
    yield from (judged, ["judge", domain, problem, plan], ["print-domain", domain], ["print-problem", problem], ["print-plan", plan])
    certificate = subprocess.run([PROGRAM, *judged], stdout=subprocess.PIPE, check=False).stdout
    if certificate.startswith(b"solves\n"):
        yield ["recheck", domain, problem, plan, write(f"{folder}/certificate.txt", certificate.partition(b"\n")[2])]


def examples(folder):
    """The commands over each example that has all three texts."""
    for entry in sorted(os.scandir(f"{TOP}/examples"), key=lambda it: it.name):
        files = [f"{entry.path}/{name}" for name in ("domain.hddl", "problem.hddl", "plan.txt")]
        if all(os.path.isfile(it) for it in files):
            room = f"{folder}/{entry.name}"
            os.mkdir(room)
            for words in commands(room, files):
                yield f"example {entry.name}", words


def rows_of(file, folder):
    """The rows of one file, each with its words, in which files stand for the names of texts."""
    texts = {}
    with open(file, "rb") as read:
        parts = re.split(rb"(?m)^### (\w[\w-]*)(?: (\S+))?\n", read.read())
    for kind, name, text in zip(parts[1::3], parts[2::3], parts[3::3]):
        kind = kind.decode()
        if kind in NAMES:
            texts[kind, name.decode()] = text
        elif kind == "row":
            words = text.decode().split()
            room = f"{folder}/{name.decode()}"
            os.mkdir(room)
            kinds = READS[words[0]]
            for at, which in zip(range(len(words) - len(kinds), len(words)), kinds):
                called, _, cut = words[at].partition("[..")
                whole = texts[which, called]
                words[at] = write(f"{room}/{which}", whole[: int(cut.rstrip("]"))] if cut else whole)
            yield f"row {name.decode()}", words


def many_types(folder):
    """The commands over a plan in a world of 150 types, each with a parent alone."""
    texts = typed.make_texts(random.Random("3 107"))
    for words in commands(folder, [write(f"{folder}/{name}", text.encode()) for name, text in zip(NAMES, texts)]):
        yield "world of many types", words


def contest(folder):
    """The commands over a plan of some thousands of actions."""
    subprocess.run([sys.executable, f"{TOP}/bench/judge_plans/make_plan.py", "deliveries", "4000", folder], check=True)
    files = [f"{folder}/{name}" for name in ("domain.hddl", "problem.hddl", "plan.txt")]
    for words in commands(folder, files):
        yield "plan of contest size", words


def library_in(folder):
    """What is loaded before a program, so that one of its requests is refused."""
    library = f"{folder}/refuse.so"
    subprocess.run(["gcc", "-O2", "-shared", "-fPIC", "-o", library, f"{TOP}/sweep/refuse.c"], check=True)
    return library


def end_of(job, number, count=os.devnull):
    environment = {"PATH": os.environ["PATH"], "LD_PRELOAD": job.library, "COUNT": count, "REFUSE": str(number)}
    run = subprocess.run([job.program, *job.words], env=environment, capture_output=True, check=False)
    return run.returncode, run.stdout, run.stderr


def sweep(job):
    """How the runs of one command ended, and those that ended otherwise than they may."""
    with tempfile.NamedTemporaryFile() as count:
        right = end_of(job, 0, count.name)
        requests = int(open(count.name, encoding="ascii").read())
    numbers = range(1, requests + 1)
    if job.is_sampled:
        numbers = (it for it in numbers if it <= 1000 or it % 100 == 0)
    ends, wrong = collections.Counter(), []
    for number in numbers:
        end = end_of(job, number)
        ends["as without" if end == right else "out of memory" if end == OUT_OF_MEMORY else "WRONG"] += 1
        if end not in (right, OUT_OF_MEMORY):
            wrong.append(f"{job.name}: {' '.join(job.words)}, request {number}: {end}")
    return job, ends, wrong


def sweep_all(jobs):
    """Sweeps the commands, and says how their runs ended. Whether one ended otherwise than it may."""
    all_ends = collections.Counter()
    with multiprocessing.Pool() as pool:
        for job, ends, wrong in pool.imap_unordered(sweep, jobs):
            all_ends += ends
            if job.is_sampled or wrong:
                print(job.name, job.words[0], *(f"{n} {end}" for end, n in sorted(ends.items())), sep=", ", flush=True)
            print(*wrong, sep="\n", end="\n" * bool(wrong))
    print(f"{len(jobs)} commands", *(f"{n} {end}" for end, n in sorted(all_ends.items())), sep=", ")
    return all_ends["WRONG"] > 0


def main():
    with tempfile.TemporaryDirectory() as folder:
        library = library_in(folder)
        rooms = [f"{folder}/{name}" for name in ("contest", "examples", "types", "rows")]
        for room in rooms:
            os.mkdir(room)
        jobs = [Job(PROGRAM, name, words, library, True) for name, words in contest(rooms[0])]
        jobs += [Job(PROGRAM, name, words, library, False) for name, words in examples(rooms[1])]
        jobs += [Job(PROGRAM, name, words, library, False) for name, words in many_types(rooms[2])]
        for file in sorted(os.listdir(ROWS)):
            room = f"{rooms[3]}/{file}"
            os.mkdir(room)
            jobs += [Job(PROGRAM, name, words, library, False) for name, words in rows_of(f"{ROWS}/{file}", room)]
        failed = sweep_all(jobs)
    sys.exit(failed)


if __name__ == "__main__":
    main()
