#!/usr/bin/env python3
"""Builds the archive of the static library poolffi over the proofs and the libraries that `rt ci` or `rt check` left in the crates' out/.

usage: python3 bindings/archive.py OUT.a

It proves none of the libraries below anew: the compiler reads what was proved of them, and refuses one that isn't. poolffi itself is checked once
more, which takes a minute of processor. Where out/ lacks a library below, run `rt check` in crates/poolffi first.

The heap that the archive calls gets the library's prefix, by objcopy: so a program may link other libraries of Rattle beside it.
"""
import os
import subprocess
import sys

NAME = "poolffi"
HEAP = ("alloc", "realloc", "dealloc")


def kit_folder():
    """The folder of the toolchain, in which the page stands that `rt doc` names."""
    page = subprocess.run(["rt", "doc"], capture_output=True, text=True, check=True).stdout.strip()
    return os.path.dirname(page)


def rename_heap(made, target):
    """Writes the archive with rattle_alloc and its like as pardz_alloc. It may be the same file."""
    words = [f"--redefine-sym=rattle_{name}=pardz_{name}" for name in HEAP]
    # It numbers symbols, whose order objcopy changes.
    words.append("--remove-section=.llvm_addrsig")
    try:
        subprocess.run(["objcopy", *words, made, target], check=True)
    except FileNotFoundError:
        sys.exit("objcopy isn't here: it comes with the linker (binutils)")


def main():
    if len(sys.argv) != 2:
        sys.exit(__doc__.strip())
    target = os.path.abspath(sys.argv[1])
    sys.path.insert(0, os.path.join(kit_folder(), "bin"))
    sys.dont_write_bytecode = True
    import rtlib

    root = os.path.dirname(os.path.dirname(os.path.abspath(__file__)))
    crate = rtlib.Crate(os.path.join(root, "crates", NAME), root, {})
    made = os.path.join(crate.folder, "out", f"lib{NAME}.a")
    os.makedirs(os.path.dirname(made), exist_ok=True)
    words = crate.words(["--jobs", "1"], keeps=False)
    tools = ["--toolchain", f"{rtlib.KIT}/toolchain"]
    status = crate.call(rtlib.RATTLE, "build", *words, *tools, "-o", f"out/lib{NAME}.a")
    if status:
        sys.exit(status)
    rename_heap(made, target)
    print(target)


if __name__ == "__main__":
    main()
