"""Runs cases in turns, and tells what a round costs.

Usage: python3 tools/bench/interleaved.py REPEATS THREADS PROGRAM:CASE:ROUNDS..

Of each case it prints the processor time of a round on one thread, and the wall time of a round over all threads, in
nanoseconds: the lower quartile and the median of the runs, less those of runs of one round; and the memory of a run of all
rounds at its peak, in KiB. The runs of all cases are made in turns, so that a slow hour of the machine falls on all of them
alike. Where it may, a run of at most as many threads as there are processors has a real-time priority.
"""

import os
import statistics
import sys
import time

PRIORITY = 10


class Case:
    """A case of a program, with its runs: each a processor time and a wall time, in seconds, and the memory at its peak."""

    def __init__(self, text):
        self.program, self.name, rounds = text.rsplit(":", 2)
        self.rounds = int(rounds)
        self.long_runs = []
        self.short_runs = []

    def run_both(self, threads):
        """Makes a run of one round and a run of all rounds."""
        self.short_runs.append(self.run(threads, 1))
        self.long_runs.append(self.run(threads, self.rounds))

    def run(self, threads, rounds):
        """Returns the processor time and the wall time of one run, and its memory."""
        words = [self.program, self.name, str(threads), str(rounds)]
        begin = time.perf_counter()
        child = os.fork()
        if child == 0:
            start(words, threads <= os.cpu_count())
        _, status, usage = os.wait4(child, 0)
        wall = time.perf_counter() - begin
        if status != 0:
            sys.exit(f"{' '.join(words)} failed")
        return usage.ru_utime + usage.ru_stime, wall, usage.ru_maxrss

    def line(self, threads):
        """Returns the line that tells what a round costs."""
        cells = []
        for index in range(2):
            short = quartiles(run[index] for run in self.short_runs)
            long = quartiles(run[index] for run in self.long_runs)
            rounds = threads * (self.rounds - 1)
            cells += [(after - before) / rounds * 1e9 for before, after in zip(short, long)]
        numbers = "".join(f"{cell:14.1f}" for cell in cells)
        memory = statistics.median(run[2] for run in self.long_runs)
        return f"{os.path.basename(self.program):12} {self.name:20} {threads:7}{numbers}{memory:12.0f}"


def start(words, first):
    """Becomes the program, with its output thrown away; `first` of all that run, if it may."""
    try:
        if first:
            os.sched_setscheduler(0, os.SCHED_FIFO, os.sched_param(PRIORITY))
    except PermissionError:
        pass
    os.dup2(os.open(os.devnull, os.O_WRONLY), 1)
    os.execv(words[0], words)


def quartiles(times):
    """Returns the lower quartile and the median."""
    lower, median, _ = statistics.quantiles(times, n=4, method="inclusive")
    return lower, median


def main():
    """Runs the cases that the words name, and prints a line for each."""
    repeats, threads = int(sys.argv[1]), int(sys.argv[2])
    cases = [Case(text) for text in sys.argv[3:]]
    for _ in range(repeats):
        for case in cases:
            case.run_both(threads)
    heads = "".join(f"{head:>14}" for head in ("cpu q25", "cpu med", "wall q25", "wall med"))
    print(f"{'program':12} {'case':20} threads{heads}{'KiB':>12}")
    for case in cases:
        print(case.line(threads))


if __name__ == "__main__":
    main()
