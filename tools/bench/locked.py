"""Tells what a locked step costs by the number of instructions between it and the next.

Usage: python3 tools/bench/locked.py [MOVES..]

For each number it has cc assemble a loop of two locked additions to one word, with so many moves between registers behind each, and
prints the least processor time of five runs, in nanoseconds a round. For x86-64.
"""

import os
import subprocess
import sys
import tempfile

ROUNDS = 20_000_000
RUNS = 5
MOVES = (0, 4, 8, 12, 16, 24, 32, 34, 36, 40, 48, 64, 80)


def program(moves):
    """Returns the text of the program."""
    between = "".join(f"  mov %r9, %r{10 + number % 2}\n" for number in range(moves))
    added = f"  lock xaddq %r8, (%rdx)\n{between}"
    return (
        "  .globl main\nmain:\n  lea word(%rip), %rdx\n"
        f"  mov ${ROUNDS}, %ecx\n  .p2align 6\n"
        f"1:\n  mov $4, %r8d\n{added}  mov $-4, %r8\n{added}"
        "  dec %ecx\n  jnz 1b\n  xor %eax, %eax\n  ret\n"
        "  .lcomm word, 64\n  .section .note.GNU-stack, \"\", @progbits\n"
    )


def time_of(path):
    """Runs a program, and returns the processor time that it took, in seconds."""
    child = os.fork()
    if child == 0:
        os.execv(path, [path])
    _, _, usage = os.wait4(child, 0)
    return usage.ru_utime + usage.ru_stime


def main():
    """Prints a line for each number of moves."""
    numbers = [int(word) for word in sys.argv[1:]] or MOVES
    with tempfile.TemporaryDirectory() as folder:
        for moves in numbers:
            source, built = os.path.join(folder, "loop.s"), os.path.join(folder, "loop")
            with open(source, "w", encoding="utf-8") as it:
                it.write(program(moves))
            subprocess.run(["cc", "-o", built, source], check=True)
            least = min(time_of(built) for _ in range(RUNS))
            print(f"{moves:6} {least / ROUNDS * 1e9:8.1f}", flush=True)


if __name__ == "__main__":
    main()
