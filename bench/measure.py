"""What the benches share: the program, and how a command is measured."""
import argparse
import os
import sys
import time

TOP = os.path.dirname(os.path.dirname(os.path.abspath(__file__)))
PROGRAM = os.path.join(TOP, 'crates', 'vaosdi', 'out', 'vaosdi')
# What is linear grows for twice the text by a factor of at most this.
GROWTH = 2.2
# Below this many seconds a time says nothing of the text.
FLOOR = 0.02


def is_built():
    """Whether the program is there; a line says so where it isn't."""
    built = os.access(PROGRAM, os.X_OK)
    if not built:
        print('bench: the program is not built')
    return built


def run_bench(description, head, bounds_passed):
    """Runs a script's measurements under a line with this head, each command as often as the script's words ask for. It ends with
    status 1 where bounds are passed, of which the measurements answer the number, and with 0 where the program is not built."""
    words = argparse.ArgumentParser(description=description, formatter_class=argparse.RawDescriptionHelpFormatter)
    words.add_argument('--runs', type=int, default=7)
    runs = words.parse_args().runs
    if not is_built():
        sys.exit(0)
    print(head)
    sys.exit(1 if bounds_passed(runs) else 0)


class Run:
    """What the runs of a command in a folder took so far: the least seconds, the peak memory in MB, and the last status."""

    def __init__(self, folder, words):
        self.folder = folder
        self.words = words
        self.status = None
        self.seconds = None
        self.peak = 0

    def once(self):
        """Runs the command.

        The peak of a child counts what this process holds when it starts it, so texts are written in pieces and not kept.
        """
        sys.stdout.flush()
        start = time.perf_counter()
        child = os.fork()
        if child == 0:
            os.chdir(self.folder)
            null = os.open(os.devnull, os.O_WRONLY)
            os.dup2(null, 1)
            os.dup2(null, 2)
            os.execvp(self.words[0], self.words)
        _, status, usage = os.wait4(child, 0)
        seconds = time.perf_counter() - start
        self.status = os.waitstatus_to_exitcode(status)
        self.seconds = seconds if self.seconds is None else min(self.seconds, seconds)
        self.peak = max(self.peak, usage.ru_maxrss / 1024)


def measured(commands, runs):
    """A `Run` for each of some commands, a folder and words each. They run in turn, so that what else the machine does
    falls on all of them alike."""
    done = [Run(folder, words) for folder, words in commands]
    for _ in range(runs):
        for run in done:
            run.once()
    return done


def compiled(folders, runs):
    """What the compilation of the file `m.va` in each of some folders took."""
    return measured([(folder, [PROGRAM, 'compile', 'm.va']) for folder in folders], runs)


def growth(one, two):
    """The factor of the seconds of two runs, or 1 where they are too few to say anything."""
    return two.seconds / one.seconds if two.seconds > FLOOR else 1.0
