"""What runs of programs cost: the processor's seconds, and the KiB of memory at their greatest."""

import os
import subprocess
import sys


def run(command, out):
    """The seconds and the KiB of one run, whose output goes into a file; None where it fails.

    A new process counts as its own the memory of the one that it was made from, so the run is made from a small one.
    """
    words = [sys.executable, "-I", "-S", __file__, *(str(word) for word in command)]
    with open(out, "wb") as to:
        small = subprocess.run(words, stdout=to, stderr=subprocess.PIPE, text=True, check=True)
    status, seconds, memory = small.stderr.split()
    return (float(seconds), int(memory)) if status == "0" else None


def best(command, out, count):
    """The least seconds and the least KiB of so many runs; None where one fails."""
    return best_of([run(command, out) for _ in range(count)])


def best_in_turns(commands, out, count):
    """The same of several commands, of which each is run once in each of so many rounds."""
    rounds = [[run(command, out) for command in commands] for _ in range(count)]
    return [best_of(runs) for runs in zip(*rounds)]


def best_of(runs):
    """The least seconds and the least KiB; None where a run has failed."""
    if None in runs:
        return None
    return min(seconds for seconds, _ in runs), min(memory for _, memory in runs)


def main():
    """Runs a command, and says on standard error how it ended and what it cost."""
    child = subprocess.Popen(sys.argv[1:], stderr=subprocess.DEVNULL)
    _, status, used = os.wait4(child.pid, 0)
    child.returncode = os.waitstatus_to_exitcode(status)
    print(child.returncode, used.ru_utime + used.ru_stime, used.ru_maxrss, file=sys.stderr)


if __name__ == "__main__":
    main()
