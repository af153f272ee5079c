"""Runs a command, as rt ci, and tells the processor seconds of each crate's proof, tests and edits.

Usage, at the top of the repository: python3 tools/gate_times.py rt ci

Twice a second it reads how much time each process of the checker has had: so a process counts to within half a second. An edit's
part has the proof that its crate's edits begin with.
"""

import collections
import os
import resource
import subprocess
import sys
import threading
import time

TICKS = os.sysconf("SC_CLK_TCK")


def stat_of(pid):
    """Returns what the system tells of a process, from its state on."""
    with open(f"/proc/{pid}/stat", encoding="utf-8") as it:
        return it.read().rpartition(")")[2].split()


def is_below(pid):
    """Whether a process was started by this one, or by one that it started."""
    while pid not in ("0", "1"):
        if pid == str(os.getpid()):
            return True
        pid = stat_of(pid)[1]
    return False


def part_of(pid):
    """Returns the crate and the part that a process works for, or None if it is no process of the checker for the command."""
    with open(f"/proc/{pid}/cmdline", encoding="utf-8") as it:
        words = it.read().split("\0")
    if os.path.basename(words[0]) != "rattle" or "--crate-name" not in words or not is_below(pid):
        return None
    crate = words[words.index("--crate-name") + 1]
    if "/rt-edit-" in os.readlink(f"/proc/{pid}/cwd"):
        return crate, "edits"
    return crate, "tests" if "--test" in words else "proof"


def sample(parts, seconds):
    """Notes the time that each process of the checker has had."""
    for pid in filter(str.isdigit, os.listdir("/proc")):
        try:
            fields = stat_of(pid)
            process = pid, fields[19]
            if not parts.get(process):
                # (again, where it was seen before it had become the checker)
                parts[process] = part_of(pid)
            if parts[process]:
                seconds[process] = sum(map(int, fields[11:13])) / TICKS
        except (OSError, ValueError):
            pass


def main():
    parts, seconds, ended = {}, {}, threading.Event()

    def watch():
        while not ended.wait(0.5):
            sample(parts, seconds)

    watcher = threading.Thread(target=watch)
    begun = time.time()
    watcher.start()
    status = subprocess.call(sys.argv[1:])
    ended.set()
    watcher.join()

    table = collections.defaultdict(collections.Counter)
    for process, spent in seconds.items():
        crate, part = parts[process]
        table[crate][part] += spent
        table["total"][part] += spent
    for crate, spent in table.items():
        if crate != "total":
            print(f"| `{crate}` |", " | ".join(str(round(spent[it])) for it in ("proof", "tests", "edits")), "|")
    print("| total |", " | ".join(str(round(table["total"][it])) for it in ("proof", "tests", "edits")), "|")
    used = resource.getrusage(resource.RUSAGE_CHILDREN)
    print(f"processor minutes: {(used.ru_utime + used.ru_stime) / 60:.0f}; wall: {(time.time() - begun) / 60:.0f}; status: {status}")
    sys.exit(status)


main()
