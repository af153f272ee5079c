"""Makes the man page of the C calls from the header `bindings/c/pardz.h`: its comments, as they stand, under the calls that they speak of."""
import pathlib
import re

ROOT = pathlib.Path(__file__).resolve().parent.parent.parent / "bindings" / "c"
HEADER = ROOT / "pardz.h"


def comment_text(comment):
    """What a comment says, as paragraphs of lines."""
    bare = [re.sub(r"^(/\*| \*) ?", "", line).strip() for line in comment.split("\n")]
    return [part.split("\n") for part in "\n".join(bare).strip().split("\n\n")]


def blocks(source):
    """The blocks of the header: what a comment says, and the lines below it, up to the next empty one."""
    found = []
    for part in re.split(r"\n(?=/\*)", source):
        if part.startswith("/*"):
            comment, _, below = part.partition("*/\n")
            found.append((comment_text(comment), below.split("\n\n")[0].rstrip("\n").split("\n")))
    return found


def prototype(below):
    """The prototype of the call that stands below a comment, if one does."""
    found = re.fullmatch(r"(?:static inline )?(\w[\w *]*?(pardz_\w+)\(.*\))(?:;| \{)", below[0])
    return (found[2], found[1] + ";") if found else None


def paragraphs(said, roff):
    """Paragraphs for roff; what stands behind a dash is an item, and codes begin a line."""
    out = []
    for lines in said:
        out.append(".PP")
        for line in lines:
            if line.startswith("- "):
                out += [".IP \\(bu 2", roff(line[2:])]
            elif line.startswith("PARDZ_") and line == lines[-1] and len(lines) > 1:
                out += [".br", roff(line)]
            else:
                out.append(roff(line))
    return out


def code_lines(enum, roff):
    """The codes, with what each says."""
    out = []
    for name, number, said in re.findall(r"^ +(PARDZ_\w+) = (\d+),?(?: +/\* (.*) \*/)?$", enum, re.M):
        out += [".TP", f"\\fB{name}\\fR ({number})", roff(said or "the call did what it says")]
    return out


def man_page(roff):
    """The page. `roff` makes a text one for roff."""
    source = HEADER.read_text(encoding="utf-8")
    version = re.search(r'^#define PARDZ_VERSION "(.*)"$', source, re.M)[1]
    (title, *rest), _ = blocks(source)[0]
    calls = [(prototype(below), said) for said, below in blocks(source) if prototype(below)]
    types = ["\n".join(below) for _, below in blocks(source) if below[0].startswith("typedef struct")]
    names = [name for (name, _), _ in calls]
    out = [
        '.\\" Made from bindings/c/pardz.h by tools/manual/make.py: change that file, not this one.',
        f'.TH PARDZ 3 "" "pardz {version}"',
        ".SH NAME",
        f"{', '.join(['pardz', *names])} \\- {roff(' '.join(title).rstrip('.').replace('A ', 'a ', 1))}",
        ".SH SYNOPSIS",
        ".nf",
        ".B #include <pardz.h>",
        ".PP",
        *[roff(line) for (_, line), _ in calls],
        ".PP",
        roff("cc $(pkg-config --cflags pardz) program.c $(pkg-config --libs pardz)"),
        ".fi",
        ".SH DESCRIPTION",
        *paragraphs(rest, roff)[1:],
        ".SH CALLS",
    ]
    for (_, line), said in calls:
        out += [".SS " + roff(line.rstrip(";")), *paragraphs(said, roff)[1:]]
    out += [".SH TYPES", ".nf", *[roff(text) + "\n" for text in types], ".fi"]
    out += [".SH CODES", *code_lines(source, roff), ".SH EXAMPLE", ".nf"]
    out += [roff((ROOT / "readme.c").read_text(encoding="utf-8").rstrip()), ".fi"]
    return "\n".join(out) + "\n"

