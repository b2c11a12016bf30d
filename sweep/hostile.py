#!/usr/bin/env python3
"""Makes random and malicious texts without end, and has two programs judge each of them.

sweep/hostile.py PROGRAM OTHER [--every] [--seed N] [--first N] [--count N] [--longest SECONDS] [--jobs N] [--keep FOLDER]

Each case spoils the texts of an example: bytes, words, sections, lines of the plan, ids near 2^64, nesting up to the limits, names
in their thousands, quantifiers in one another. Both programs have the same command line. A case is kept, in a folder of its own,
where the two write something else or end otherwise, where one ends by a signal, and where PROGRAM takes more than twenty times as
long as OTHER and more than a second. With --every its texts are printed anew too, and the certificates that PROGRAM writes for it and
for an example that is solved are checked, half of them spoilt. The last line counts what each command came to. The same seed makes the
same cases."""

import argparse
import collections
import itertools
import multiprocessing
import os
import random
import re
import shutil
import signal
import subprocess
import tempfile
import time

TOP = os.path.dirname(os.path.dirname(os.path.abspath(__file__)))
NAMES = ("domain.hddl", "problem.hddl", "plan.txt")
# what a text of one language may be taken for in another, and the edges of each
WORDS = (
    b"define domain problem either forall exists not and or imply when = - object () (and) (or) ( ) -> ==> <== root <sort0> ; ? ?x : :types "
    b":constants :objects :predicates :task :method :action :parameters :precondition :effect :subtasks :ordered-subtasks :tasks "
    b":ordering :constraints :htn :init :goal :requirements < 0 1 00 18446744073709551615 18446744073709551616 99999999999999999999"
).split()


def read_examples():
    """The texts of each example that has all three."""
    for entry in sorted(os.scandir(f"{TOP}/examples"), key=lambda it: it.name):
        files = [f"{entry.path}/{name}" for name in NAMES]
        if all(os.path.isfile(it) for it in files):
            yield [open(it, "rb").read() for it in files]


def is_solved(program, texts):
    """Whether a program says so of an example."""
    with tempfile.TemporaryDirectory() as folder:
        return subprocess.run([program, "judge", *put(folder, texts)], stdout=subprocess.DEVNULL).returncode == 0


def bytes_spoiled(chance, texts):
    """Some bytes of one text are others, or gone, or stand twice."""
    which = chance.randrange(3)
    text = bytearray(texts[which])
    for _ in range(chance.randint(1, 4)):
        at = chance.randrange(len(text) + 1)
        how = chance.randrange(4)
        if how == 0:
            text[at:at] = bytes([chance.choice((0, 9, 10, 13, 32, 40, 41, 59, 63, 127, 128, 255, chance.randrange(256)))])
        elif how == 1:
            del text[at : at + chance.randint(1, 9)]
        elif how == 2:
            text[at : at + 1] = bytes([chance.randrange(256)])
        else:
            text = text[:at] if chance.random() < 0.2 else text[:at] + text[at : at + 30] + text[at:]
    texts[which] = bytes(text)


def words_spoiled(chance, texts):
    """Some words of one text are others, of this text or of any."""
    which = chance.randrange(3)
    parts = re.split(rb"(\s+|[()])", texts[which])
    places = [at for at, part in enumerate(parts) if part.strip()]
    for _ in range(chance.randint(1, 3) if places else 0):
        at = chance.choice(places)
        parts[at] = chance.choice((chance.choice(WORDS), parts[chance.choice(places)], b"", parts[at] + b" " + parts[at], parts[at].upper()))
    texts[which] = b"".join(parts)


def forms(text):
    """Where the lists of a text begin and end."""
    opened, found = [], []
    for match in re.finditer(rb"[()]", text):
        if match[0] == b"(":
            opened.append(match.start())
        elif opened:
            found.append((opened.pop(), match.end()))
    return found


def sections_spoiled(chance, texts):
    """A list of one text is gone, stands twice, or stands where another does, in this text or the other."""
    which, other = chance.randrange(2), chance.randrange(2)
    mine, others = forms(texts[which]), forms(texts[other])
    if not mine or not others:
        return
    begin, end = chance.choice(mine)
    from_begin, from_end = chance.choice(others)
    put = chance.choice((b"", b"()", texts[which][begin:end] * 2, texts[other][from_begin:from_end], b"(and " + texts[which][begin:end] + b")"))
    texts[which] = texts[which][:begin] + put + texts[which][end:]


def lines_spoiled(chance, texts):
    """Lines of the plan are gone, stand twice, elsewhere or with other words."""
    lines = texts[2].split(b"\n")
    for _ in range(chance.randint(1, 3)):
        at, to = chance.randrange(len(lines)), chance.randrange(len(lines))
        how = chance.randrange(5)
        if how == 0:
            lines[at], lines[to] = lines[to], lines[at]
        elif how == 1:
            lines.insert(to, lines[at])
        elif how == 2 and len(lines) > 1:
            del lines[at]
        else:
            words = lines[at].split(b" ")
            words[chance.randrange(len(words))] = chance.choice(chance.choice(lines).split(b" ") or [b""])
            if how == 3:
                chance.shuffle(words)
            lines[at] = b" ".join(words)
    texts[2] = b"\n".join(lines)


def ids_moved(chance, texts):
    """The ids of the plan are others, the same for the same, about the greatest that there is."""
    base = chance.choice((2**64 - 200, 2**64 - 3, 2**63, 2**32 - 3, 0))
    moved = {}

    def move(match):
        return str(moved.setdefault(match[0], base + len(moved))).encode()

    texts[2] = re.sub(rb"(?m)(?<![^\s])\d+(?![^\s])", move, texts[2])


def nested(chance, texts):
    """A list of one text stands in many others."""
    which = chance.randrange(2)
    found = forms(texts[which])
    if found:
        begin, end = chance.choice(found)
        depth = chance.choice((1, 2, 100, 250, 253, 254, 255, 256, 300, 100000))
        head = chance.choice((b"(not ", b"(and ", b"(", b"(forall (?q) ", b"(or () "))
        texts[which] = texts[which][:begin] + head * depth + texts[which][begin:end] + b")" * depth + texts[which][end:]


def quantified(chance, texts):
    """The goal, or a precondition, asks for all objects: in quantifiers in one another, or with as many variables as one may have and
    one more, where the first choice of objects decides."""
    which = chance.randrange(2)
    places = [match.end() for match in re.finditer(rb":(?:precondition|goal)\s*", texts[which])]
    if not places:
        return
    at = chance.choice(places)
    begin, end = next(((b, e) for b, e in sorted(forms(texts[which])) if b >= at), (at, at))
    kind, decided = chance.choice(((b"forall", b"(or)"), (b"exists", b"(and)")))
    count = chance.choice((1, 2, 16, 17))
    variables = b" ".join(b"?q%d" % number for number in range(count))
    inner = decided if count > 2 else chance.choice((b"(= ?q0 ?q0)", b"(and)", b"(or)", texts[which][begin:end]))
    depth = 1 if count > 1 else chance.randint(1, 3)
    heads = b"(%s (%s) " % (kind, variables)
    texts[which] = texts[which][:at] + heads * depth + inner + b")" * depth + texts[which][end:]


def many(chance, texts):
    """Thousands of objects, atoms, types or lines that are much alike."""
    count = chance.choice((1000, 5000, 20000))
    name = b"n" * chance.randint(1, 60)
    how = chance.randrange(3)
    if how == 0:
        more = b" ".join(name + b"%d" % number for number in range(count))
        texts[1] = re.sub(rb"\(:objects", lambda found: found[0] + b" " + more, texts[1], count=1)
    elif how == 1:
        more = b" ".join(b"%s%d - %s%d" % (name, number, name, number + 1) for number in range(count))
        texts[0] = re.sub(rb"\(:types", lambda found: found[0] + b" " + more, texts[0], count=1)
    else:
        lines = [b"%d %s" % (number + 10**6, name) for number in range(count)]
        texts[2] = texts[2].replace(b"==>\n", b"==>\n" + b"\n".join(lines) + b"\n", 1)


SPOILERS = (bytes_spoiled, words_spoiled, sections_spoiled, lines_spoiled, ids_moved, nested, quantified)


def make(seed, number, examples):
    """The texts of a case, and the words of the command behind them."""
    chance = random.Random(f"{seed} {number}")
    texts = list(chance.choice(examples))
    for _ in range(chance.choice((1, 1, 1, 2, 3))):
        chance.choice(SPOILERS)(chance, texts)
    if chance.random() < 0.01:
        many(chance, texts)
    words = ["--explain"] if chance.random() < 0.3 else []
    if chance.random() < 0.2:
        words += ["--limit", str(chance.choice((0, 1, 2, 20, 2**64 - 1)))]
    return texts, words


class Watch:
    """Ends a process that runs for too long. The worker's own alarm does it, so that starting one costs nothing more."""

    def __init__(self, longest):
        self.longest, self.child, self.is_late = longest, 0, False
        signal.signal(signal.SIGALRM, self.end)

    def end(self, *_):
        self.is_late = True
        os.kill(self.child, signal.SIGKILL)

    def wait(self, child):
        """The exit status of a process, or that there was no end to it."""
        self.child, self.is_late = child, False
        signal.setitimer(signal.ITIMER_REAL, self.longest)
        status = os.waitpid(child, 0)[1]
        signal.setitimer(signal.ITIMER_REAL, 0)
        return "no end" if self.is_late else os.waitstatus_to_exitcode(status)


def put(folder, texts):
    """Writes texts down; answers their files."""
    files = [f"{folder}/{name}" for name in NAMES]
    for file, text in zip(files, texts):
        with open(file, "wb") as out:
            out.write(text)
    return files


def rechecked(program, chance, files):
    """The words that check a certificate: as PROGRAM says it, or spoilt."""
    (_, said), _ = end_of(program, ["judge", "--explain", *files], judge.folder, judge.watch)
    # a spoiler changes one of three texts, whichever it is
    texts = [said] * 3
    if chance.random() < 0.5:
        chance.choice((lines_spoiled, words_spoiled, words_spoiled, bytes_spoiled))(chance, texts)
    file = f"{os.path.dirname(files[0])}/certificate.txt"
    with open(file, "wb") as out:
        out.write(next((text for text in texts if text != said), said))
    return ["recheck", *files, file]


def commands(arguments, chance, words, files):
    """The words of each command to try on a case, and on an example that is solved."""
    yield ["judge", *words, *files]
    if arguments.every:
        yield from (["print-domain", files[0]], ["print-problem", files[1]], ["print-plan", files[2]])
        yield rechecked(arguments.program, chance, files)
        yield rechecked(arguments.program, chance, put(f"{judge.folder}/example", chance.choice(arguments.solved)))


def end_of(program, words, folder, watch):
    """How a run ends, and how long it takes."""
    said = f"{folder}/said"
    outputs = [(os.POSIX_SPAWN_OPEN, 1, said, os.O_WRONLY | os.O_CREAT | os.O_TRUNC, 0o600)]
    outputs += [(os.POSIX_SPAWN_OPEN, 2, os.devnull, os.O_WRONLY, 0)]
    begun = time.monotonic()
    status = watch.wait(os.posix_spawn(program, [program, *words], os.environ, file_actions=outputs))
    seconds = time.monotonic() - begun
    with open(said, "rb") as read:
        return (status, read.read()), seconds


def kind_of(end, other, seconds, others, longest):
    """What is said of a case: what it is kept for, or how it ended."""
    if "no end" in (end[0], other[0]) and min(seconds, others) > longest / 10:
        return "no end of both, or nearly so"
    if other[0] == "no end" and isinstance(end[0], int) and end[0] >= 0:
        return "no end of the other"
    if isinstance(end[0], int) and end[0] < 0:
        return "SIGNAL"
    if end != other:
        return "DIFFERS"
    if seconds > max(1.0, 20 * others):
        return "SLOW"
    return f"status {end[0]}"


def prepare(room, longest):
    """Gives a worker a folder of its own, and a watch."""
    judge.folder, judge.watch = tempfile.mkdtemp(dir=room), Watch(longest)
    os.mkdir(f"{judge.folder}/example")


def judge(task):
    """Tries the commands on one case by both programs: what each came to."""
    arguments, examples, number = task
    texts, words = make(arguments.seed, number, examples)
    files, chance, kinds = put(judge.folder, texts), random.Random(f"{number} {arguments.seed}"), []
    for place, command in enumerate(commands(arguments, chance, words, files)):
        end, seconds = end_of(arguments.program, command, judge.folder, judge.watch)
        other, others = end_of(arguments.other, command, judge.folder, judge.watch)
        kind = kind_of(end, other, seconds, others, arguments.longest)
        if kind.isupper():
            said = [f"{kind} {seconds:.2f} s {others:.2f} s", repr(end), repr(other)]
            keep(f"{arguments.keep}/{number}-{place}-{command[0]}", command, said)
        kinds.append((command[0], kind))
    return number, kinds


def keep(folder, command, said):
    """Puts the files of a command down, with what was said of it."""
    os.makedirs(folder, exist_ok=True)
    for word in command:
        if os.path.isfile(word):
            shutil.copy(word, folder)
    with open(f"{folder}/said", "w", encoding="utf-8") as out:
        out.write("\n".join([" ".join(os.path.basename(word) for word in command), *said, ""]))


def tell(kinds):
    """Prints how often each command came to what."""
    print(*(f"{count} {command} {kind}" for (command, kind), count in sorted(kinds.items())), sep=", ", flush=True)


def main():
    parser = argparse.ArgumentParser(description=__doc__, formatter_class=argparse.RawDescriptionHelpFormatter)
    parser.add_argument("program")
    parser.add_argument("other")
    parser.add_argument("--every", action="store_true", help="every command, and not judge alone")
    parser.add_argument("--seed", type=int, default=1)
    parser.add_argument("--first", type=int, default=0, help="the number of the first case")
    parser.add_argument("--count", type=int, help="so many cases, and not without end")
    parser.add_argument("--longest", type=float, default=5, help="the seconds after which a run is given up")
    parser.add_argument("--jobs", type=int, default=os.cpu_count())
    parser.add_argument("--keep", default="hostile", help="the folder for cases that are kept")
    arguments = parser.parse_args()
    arguments.program, arguments.other = (os.path.abspath(it) for it in (arguments.program, arguments.other))
    examples = list(read_examples())
    arguments.solved = [texts for texts in examples if is_solved(arguments.program, texts)]
    numbers = range(arguments.first, arguments.first + arguments.count) if arguments.count else itertools.count(arguments.first)
    kinds = collections.Counter()
    memory = "/dev/shm" if os.path.isdir("/dev/shm") else None
    with tempfile.TemporaryDirectory(dir=memory) as room, multiprocessing.Pool(arguments.jobs, prepare, (room, arguments.longest)) as pool:
        for cases, (number, found) in enumerate(pool.imap_unordered(judge, ((arguments, examples, it) for it in numbers), chunksize=20), 1):
            for command, kind in found:
                kinds[command, kind] += 1
                if kind.isupper():
                    print(f"case {number}: {command} {kind}", flush=True)
            if cases % 10000 == 0:
                tell(kinds)
    tell(kinds)
    raise SystemExit(any(kind.isupper() for _, kind in kinds))


if __name__ == "__main__":
    main()
