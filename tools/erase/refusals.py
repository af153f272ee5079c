#!/usr/bin/env python3
"""Tests of the translator: forms that it doesn't know are refused with file and line, and what it writes is the same each time."""
import os
import shutil
import sys
import tempfile

sys.dont_write_bytecode = True
import erase
import tokens
from cases import ERASED, KEPT, LEFT, REFUSED, WRONG

# The crate of the cases: one with all forms.
CRATE = "seatcalls"


class All:
    """All names."""

    def __contains__(self, _):
        return True


def erased(texts):
    """What the translator writes for a crate of these files, or of one, of which all is used."""
    folder = tempfile.mkdtemp()
    files = texts if isinstance(texts, dict) else {"lib": texts}
    try:
        os.makedirs(os.path.join(folder, CRATE, "src"))
        for name, text in files.items():
            with open(os.path.join(folder, CRATE, "src", name + ".rt"), "w", encoding="utf-8") as file:
                file.write(text)
        return erase.Eraser(folder, {f"{CRATE}/{name}": All() for name in files}).texts()
    finally:
        shutil.rmtree(folder)


def refused():
    """How many forms are refused as they should be; names the others."""
    good = 0
    for name, text, place, what in REFUSED:
        file, line = place.split(":") if isinstance(place, str) else ("lib", place)
        try:
            erased(text)
            said = "it is taken"
        except erase.Refused as fault:
            said = str(fault)
        if said.startswith(f"crates/{CRATE}/src/{file}.rt:{line}: ") and what in said:
            good += 1
        else:
            print(f"FAIL {name}: {said}")
    return good


def kept():
    """How many forms are kept as they should be; names the others."""
    good = 0
    for name, text, left in KEPT:
        try:
            made = erased(text)[f"{CRATE}/mod.rs"]
        except erase.Refused as fault:
            made = str(fault)
        if left in made:
            good += 1
        else:
            print(f"FAIL {name}: {made}")
    return good


def found():
    """How many wrong texts the second reader refuses; names the others. It has the right ones."""
    good = 0
    for name, text, wrong in WRONG:
        try:
            tokens.compare({(CRATE, "lib"): text}, {(CRATE, "lib"): wrong})
            print(f"FAIL the second reader takes {name}")
        except SystemExit:
            good += 1
    right = {(CRATE, "lib"): ERASED}, {(CRATE, "lib"): LEFT}
    return good if tokens.compare(*right) else 0


def main():
    good, left, wrong = refused(), kept(), found()
    made = erased(ERASED)[f"{CRATE}/mod.rs"]
    if made != LEFT:
        print("FAIL what is left of a crate:\n" + made)
    elif erased(ERASED)[f"{CRATE}/mod.rs"] != made:
        print("FAIL two runs differ")
    elif (good, left, wrong) == (len(REFUSED), len(KEPT), len(WRONG)):
        print(f"{good} forms are refused with file and line, {left} are kept; the second reader refuses {wrong} wrong texts")
        return
    sys.exit(1)


if __name__ == "__main__":
    main()
