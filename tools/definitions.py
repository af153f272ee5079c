#!/usr/bin/env python3
"""Makes docs/DEFINITIONS.md from the comments of the crates' specs/, and finds a definition with its sentence.

usage: python3 tools/definitions.py            writes the page
       python3 tools/definitions.py --check    compares it; status 1 where it isn't what would be written
       python3 tools/definitions.py WORD..     prints each definition whose name, file or sentence has all the words

A file of specs/ begins with a comment that says what it defines; a definition has its sentence as the comment above it.
"""
import pathlib
import re
import sys

ROOT = pathlib.Path(__file__).resolve().parent.parent
PAGE = ROOT / "docs" / "DEFINITIONS.md"
HEAD = """# Definitions

What the contracts of the pool cite, file by file, in the crates' `specs/`. Made by `tools/definitions.py` from the comments there: of each file, the first sentence. Each definition has its sentence above it: `python3 tools/definitions.py WORD..` prints those that have the words, such as a crate's name, also of the programs, whose files their crates' READMEs name. The words themselves: [GLOSSARY](GLOSSARY.md).
"""
# The band of crates.txt that the page leaves to the script.
PROGRAMS = "# programs and tests"
# (what a file says whose definitions the crate's own proofs alone use)
INNER = "No public clause cites this module"
# The line of crates.txt behind which tools/begin puts crates of one's own: no page tells of them.
OWN = "# your own"
DEFINES = re.compile(r"(?:abbrev |unfoldable )?pub (?:record |data |type )?([^\s(:]+)")


def lines_of_crates():
    """The lines of crates.txt that pages tell of."""
    lines = (ROOT / "crates.txt").read_text(encoding="utf-8").splitlines()
    return lines[: lines.index(OWN)] if OWN in lines else lines


def crates(until=None):
    """The crates, in the order of crates.txt, up to a line of it."""
    lines = lines_of_crates()
    lines = lines[: lines.index(until)] if until else lines
    return [line.split(":")[0].split()[0] for line in lines if line.strip() and not line.startswith("#")]


def files(crate):
    """The files of definitions of a crate, in the order of its specs/Lib.antt."""
    folder = ROOT / "crates" / crate / "specs"
    if not folder.is_dir():
        return []
    names = re.findall(r"^(?:pub )?mod (\w+)", (folder / "Lib.antt").read_text(encoding="utf-8"), re.M)
    return [folder / f"{name}.antt" for name in names if (folder / f"{name}.antt").is_file()]


def comment(lines):
    """The text of the comment with which the lines end."""
    at = len(lines)
    while at and lines[at - 1].startswith("--"):
        at -= 1
    return " ".join(line[2:].strip() for line in lines[at:])


def head(path):
    """What a file says of itself."""
    lines = path.read_text(encoding="utf-8").splitlines()
    end = next((at for at, line in enumerate(lines) if not line.startswith("--")), len(lines))
    return comment(lines[:end])


def definitions(path):
    """The definitions of a file, each with its sentence."""
    lines = path.read_text(encoding="utf-8").splitlines()
    for at, line in enumerate(lines):
        found = DEFINES.match(line)
        if found and found.group(1) != "mod":
            yield found.group(1), comment(lines[:at])


def page():
    """The whole page."""
    parts = [HEAD]
    for crate in crates(PROGRAMS):
        heads = [(path.stem, head(path).rstrip(".")) for path in files(crate)]
        rows = [f"- `{name}`: {says.split('. ')[0]}" for name, says in heads if INNER not in says]
        if rows:
            parts.append(f"\n## {crate}\n\n" + "\n".join(rows) + "\n")
    return "".join(parts)


def find(words):
    """Prints the definitions that have all the words, and answers whether there is one."""
    any_found = False
    for crate in crates():
        for path in files(crate):
            for name, sentence in definitions(path):
                text = f"{crate} {path.stem}.{name} {sentence}".lower()
                if all(word.lower() in text for word in words):
                    any_found = True
                    print(f"{crate} {path.stem}.{name}\n    {sentence or '(no sentence of its own)'}")
    return any_found


def main():
    words = sys.argv[1:]
    if words == ["--check"]:
        if PAGE.read_text(encoding="utf-8") != page():
            sys.exit("docs/DEFINITIONS.md isn't what tools/definitions.py writes: run it")
        print("docs/DEFINITIONS.md is what the sources say")
    elif words:
        sys.exit(0 if find(words) else 1)
    else:
        PAGE.write_text(page(), encoding="utf-8")


if __name__ == "__main__":
    main()
