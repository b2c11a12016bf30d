"""What the benches share: running a program, and the memory that it took."""
import os
import subprocess
import sys


def run(*words):
    """The words that a program prints, and the peak of its memory in bytes. It has to end well and to print something."""
    with subprocess.Popen(words, stdout=subprocess.PIPE, text=True) as child:
        said = child.stdout.read().split()
        _, status, usage = os.wait4(child.pid, 0)
        child.returncode = status
    if status != 0 or not any(word.isdigit() for word in said):
        sys.exit(f"{' '.join(words)} ended with {status}: {' '.join(said)}")
    return said, usage.ru_maxrss * 1024


def numbers(*words):
    """The numbers among the words that a program prints, and the peak of its memory in bytes."""
    said, peak = run(*words)
    return [int(word) for word in said if word.isdigit()], peak
