#!/usr/bin/env python3
"""Tests the pages: one line for each test, status 1 where one fails. Nothing but the Python standard library.

usage: python3 tools/check.py

- links: each relative link leads to a file, and each anchor to a heading; docs/README.md links to each page of docs
- snippets: each fenced block of README, USING and C stands in a source, but for lines of `...` (or `// ...`) between its parts
- figures: where a figure stands on two pages, or follows from the repository, it is the same; a number of edits, minutes of the gate,
  instructions or ns stands on the page where it is at home, if it stands on another
- versions: the programs, the crate, the release and the pages say one version
- names: the edits of WRONG_BODIES are those of the crates; the files that pages name are there; what PROVED names stands in a source; each
  crate has a README, which names all files of its src, and so have the notes of bindings/rust
- maps: each file of "To change" is there and has the items that are named in it; what is to be looked for by grep is found
- glossary: each bold word is in a source
- lines: no row of a table is longer than 400 characters, and no line of a contract or a definition wider than 140 columns
- DEFINITIONS is what definitions.py writes, the picture of the crates what crates_picture.py does, and the tables and charts of measured figures
  what tools/bench/table makes of docs/benchmark.json
- what tools/begin makes is the sample under another name
"""
import functools
import pathlib
import re
import shutil
import subprocess
import sys
import tempfile

sys.dont_write_bytecode = True
import crates_picture
import definitions

sys.path.append(str(pathlib.Path(__file__).resolve().parent / "bench"))
import figures as measured

ROOT = pathlib.Path(__file__).resolve().parent.parent
PAGES = sorted((ROOT / "docs").glob("*.md"))
TOP = [ROOT / name for name in ("README.md", "CHANGELOG.md", "CONTRIBUTING.md", "SECURITY.md") if (ROOT / name).is_file()]
OTHERS = sorted((ROOT / "bindings").glob("**/README.md")) + sorted((ROOT / "tools").glob("**/README.md")) + [ROOT / "bindings/rust/CHANGELOG.md", ROOT / "bindings/rust/CONTRIBUTING.md"]
NOTES = [ROOT / "crates" / crate / "README.md" for crate in definitions.crates()]
WITH_SNIPPETS = ("README.md", "docs/USING.md", "docs/C.md")
# The other pages with maps of what a change touches, and where the map begins if not at "To change".
MAPPED = ("bindings/rust/CONTRIBUTING.md", "bindings/explore/README.md", "bindings/c/README.md", "docs/ARCHITECTURE.md")
MAPS = {"docs/ARCHITECTURE.md": "^### What every change touches$"}
LONGEST_ROW = 400
WIDEST_CLAUSE = 140

# A figure, and where it stands: in each page by a pattern, whose groups are all the same. The first place is the one to change first.
CRATES = len(definitions.crates())
MEASURED = measured.Figures(measured.read())
EDITS = [path for crate in definitions.crates() for path in ROOT.glob(f"crates/{crate}/must-fail/*.edit")]
FIGURES = [
    ("edits", str(len(EDITS)), [("docs/GATE.md", r"(\d+) edits refused")]),
    ("crates", str(CRATES), [("README.md", r"all (\d+) crates"), ("docs/ARCHITECTURE.md", r"^The (\d+) crates")]),
    ("the kit", None, [("docs/PROVED.md", r"`(rattle-kit-\w+) logic"), ("README.md", r"(rattle-kit-\w+)"), ("docs/USING.md", r"(rattle-kit-\w+)"), ("CONTRIBUTING.md", r"(rattle-kit-\w+)")]),
    ("bytes of a place of the proved pool", None, [("docs/BENCHMARK.md", r"(\d+) bytes for each place"), ("README.md", r"proved pool takes (\d+) bytes for each place"), ("README.md", r"a place takes (\d+) \+")]),
    ("bytes of a crate's object in a million", f"{MEASURED.bytes_of('crate', 1_000_000):.0f}", [("README.md", r"(\d+) bytes for each of a million")]),
    ("kilobytes of a crate's pool with one object", f"{MEASURED.bytes_of('crate', 1) / 1000:.0f}", [("README.md", r"takes (\d+) KB for a pool with one")]),
    ("steps of a get", None, [("bindings/explore/scenarios/steps.rs", r'\("get", (\d+), '), ("bindings/explore/README.md", r"a get makes (\d+)")]),
    ("steps of a release", None, [("bindings/explore/scenarios/steps.rs", r'\("release", (\d+), '), ("bindings/explore/README.md", r"a get makes \d+, a release (\d+)")]),
    ("steps of a clear", None, [("bindings/explore/scenarios/steps.rs", r'\("clear", (\d+), '), ("bindings/explore/README.md", r"a release \d+ and a clear (\d+)")]),
    ("the gate, processor minutes", None, [("docs/GATE.md", r"some (\d+) processor minutes"), ("CONTRIBUTING.md", r"some (\d+) processor minutes"), ("README.md", r"some (\d+) processor minutes")]),
    ("exports", str(sum(it.read_text(encoding="utf-8").count("#[unsafe(no_mangle)]") for it in (ROOT / "crates/poolffi/src").glob("*.rt"))), [("docs/PROVED.md", r"all (\d+) exports"), ("docs/C.md", r"declares (\d+) functions")]),
]

# Where the version stands; the first place is the one to change first.
VERSIONS = [
    ("bindings/rust/Cargo.toml", r'^version = "([\d.]+)"'),
    ("bindings/rust/Cargo.lock", r'^name = "pardz"\nversion = "([\d.]+)"'),
    ("bindings/rust/CHANGELOG.md", r"\A# Changes\n(?:(?!## \d).*\n)*## ([\d.]+)"),
    ("bindings/c/library/Cargo.toml", r'^version = "([\d.]+)"'),
    ("bindings/c/library/Cargo.lock", r'^name = "pardz-c"\nversion = "([\d.]+)"'),
    ("bindings/c/pardz.h", r'^#define PARDZ_VERSION "([\d.]+)"'),
    ("crates/commandline/src/run_lines.rt", r'^pub\(crate\) const VERSION: &str = "([\d.]+)"'),
    ("tools/programs/rows/words", r"^=~ (?:poolrun|poolview) ([\d.]+)$"),
    ("docs/pages/man/poolrun.1", r'"poolrun ([\d.]+)"'),
    ("tools/release", r'^VERSION = "([\d.]+)"'),
    ("CHANGELOG.md", r"\A# Changes\n(?:(?!## \d).*\n)*## ([\d.]+)"),
    ("README.md", r"all have the same version: ([\d.]*\d)"),
]

# Figures by their units: where they are at home. On another page such a number stands only if it stands there too.
HOMES = {
    r"edits\b": ("docs/GATE.md",),
    r"processor minutes\b": ("docs/GATE.md",),
    r"(?:instructions\b|ns\b|µs\b)": ("docs/BENCHMARK.md", "docs/SPEED.md", "docs/C.md", "docs/TESTED.md"),
}
# What DECISIONS alone tells: what a choice saved when it was made.
PAST = {"421", "237"}


def text_of(path):
    return path.read_text(encoding="utf-8")


def named(path):
    return str(path.relative_to(ROOT))


def without_code(text):
    """A page without its blocks of code."""
    text = re.sub(r"^```.*?^```$", "", text, flags=re.M | re.S)
    return "\n".join(line for line in text.splitlines() if not line.startswith("    "))


def anchor(heading):
    """The anchor of a heading, as the usual hosts make it."""
    heading = re.sub(r"\[([^\]]*)\]\([^)]*\)", r"\1", heading).replace("`", "").strip().lower()
    return re.sub(r"[^\w\- ]", "", heading).replace(" ", "-")


def anchors(path):
    return {anchor(found) for found in re.findall(r"^#+ (.*)$", re.sub(r"^```.*?^```$", "", text_of(path), flags=re.M | re.S), re.M)}


def links():
    """Links that lead nowhere."""
    for page in TOP + PAGES + OTHERS + NOTES:
        if not page.is_file():
            yield f"{named(page)} isn't there"
            continue
        for target in re.findall(r"\]\(([^)\s]+)\)", without_code(text_of(page))):
            if "://" in target:
                continue
            name, _, part = target.partition("#")
            goal = (page.parent / name).resolve() if name else page
            if not goal.exists():
                yield f"{named(page)}: {target}"
            elif part and goal.suffix == ".md" and part not in anchors(goal):
                yield f"{named(page)}: no heading for {target}"
    contents = text_of(ROOT / "docs/README.md")
    yield from (f"docs/README.md: no link to {page.name}" for page in PAGES if page.name != "README.md" and f"]({page.name})" not in contents)


def sources():
    """The lines of all files from which snippets are, without their indentation."""
    found = []
    for pattern in ("crates/*/src/**/*.rt", "crates/*/specs/*.antt", "crates/*/proofs/**/*.antt", "bindings/c/**/*.[ch]", "bindings/rust/examples/*.rs", "bindings/rust/src/*.rs", "bindings/rust/README.md"):
        for path in ROOT.glob(pattern):
            if path.is_file():
                found.append("\n" + "\n".join(line.strip() for line in text_of(path).splitlines()) + "\n")
    return found


def snippets():
    """Snippets that stand in no source."""
    texts = sources()
    for name in WITH_SNIPPETS:
        for block in re.findall(r"^```\w*\n(.*?)^```$", text_of(ROOT / name), re.M | re.S):
            lines = [line.strip() for line in block.strip("\n").splitlines()]
            parts, part = [], []
            for line in lines:
                if line in ("...", "// ..."):
                    parts.append(part)
                    part = []
                else:
                    part.append(line)
            wanted = ["\n" + "\n".join(it) + "\n" for it in parts + [part] if it]
            if not any(all(it in text for it in wanted) for text in texts):
                yield f"{name}: {next(line for line in lines if line)}"


def figures():
    """Figures that differ, or that aren't found any more where they are looked for."""
    for what, due, places in FIGURES:
        told = {("the repository", due)} if due else set()
        for name, pattern in places:
            path = ROOT / name
            found = [it.replace(",", "") for it in re.findall(pattern, text_of(path), re.M)] if path.is_file() else []
            if not found:
                yield f"{what}: not found in {name}"
            told |= {(name, it) for it in found}
        if len({it for _, it in told}) > 1:
            yield f"{what}: " + ", ".join(f"{name} {it}" for name, it in sorted(told))


def versions():
    """Places that say another version, or none."""
    told = {}
    for name, pattern in VERSIONS:
        found = set(re.findall(pattern, text_of(ROOT / name), re.M))
        told[name] = " and ".join(sorted(found))
        if not found:
            yield f"not found in {name}"
    if len(set(told.values())) > 1:
        yield ", ".join(f"{name} {it}" for name, it in told.items())


def strays():
    """Figures that stand on a page without standing where they are at home."""
    for unit, homes in HOMES.items():
        at_home = set(re.findall(r"[\d.,]*\d", " ".join(text_of(ROOT / name) for name in homes if (ROOT / name).is_file())))
        for page in TOP + PAGES + OTHERS + NOTES:
            if named(page) not in homes:
                for number in re.findall(r"(?<![\d.,])(\d[\d.,]*) " + unit, text_of(page)):
                    if number not in at_home | PAST:
                        yield f"{named(page)}: {number} {unit}"


def wrong_bodies():
    """Edits that the page doesn't list, and rows without an edit."""
    listed, crate = set(), None
    for line in text_of(ROOT / "docs/WRONG_BODIES.md").splitlines():
        if line.startswith("## "):
            crate = line[3:]
        row = re.match(r"\| `(\w+)` \| ", line)
        if row and crate and (ROOT / "crates" / crate).is_dir():
            listed.add((crate, row.group(1)))
    there = {(path.parent.parent.name, path.stem) for path in EDITS}
    yield from (f"no row for {crate}/{name}" for crate, name in sorted(there - listed))
    yield from (f"no edit for {crate}/{name}" for crate, name in sorted(listed - there))


def is_there(folder):
    """Whether a file or a folder of sources is there; pages leave out the ending of a file of definitions or proofs."""
    return folder.exists() or folder.with_name(folder.name + ".antt").exists()


def paths():
    """Files of the repository that a page names and that aren't there."""
    for page in TOP + PAGES + OTHERS + NOTES:
        if page.name == "CHANGELOG.md":
            continue
        text = text_of(page)
        for path in re.findall(r"`((?:crates|bindings|docs|tools)/[\w./-]+)`", text):
            if "/out" not in path and not re.search(r"\b(CRATE|NAME)\b", path) and not (ROOT / path).exists():
                yield f"{named(page)}: {path}"
        for crate, path in re.findall(r"`(\w+)/((?:src|specs|proofs|must-fail|data)/\w[\w./-]*)`", text):
            if (ROOT / "crates" / crate).is_dir() and not is_there(ROOT / "crates" / crate / path):
                yield f"{named(page)}: {crate}/{path}"


def notes():
    """Of the crates' READMEs and the Rust crate's notes: files that they name and that aren't there, and files of `src` that they don't name."""
    for page in NOTES:
        folder, text = page.parent, text_of(page)
        for path in re.findall(r"`((?:src|specs|proofs|must-fail|data)/\w[\w./-]*)`", text):
            if not is_there(folder / path):
                yield f"{named(page)}: {path}"
        told = set(re.findall(r"^- `(\w+\.rt)`", text, re.M))
        there = {path.name for path in (folder / "src").glob("*.rt")} - {"lib.rt"}
        yield from (f"{named(page)}: no line for {name}" for name in sorted(there - told))
        yield from (f"{named(page)}: {name} isn't there" for name in sorted(told - there - {"lib.rt"}))
    page = ROOT / "bindings/rust/CONTRIBUTING.md"
    told = set(re.findall(r"`((?:src|tests|examples)/[\w/]+\.rs)`", text_of(page)))
    there = {str(path.relative_to(page.parent)) for path in (page.parent / "src").rglob("*.rs") if "erased" not in path.parts}
    yield from (f"{named(page)}: no line for {name}" for name in sorted(there - told))
    yield from (f"{named(page)}: {name} isn't there" for name in sorted(told) if not (page.parent / name).is_file())


def text_at(path):
    """The text of a file, or of all files of a folder. Pages leave out the ending of a file of definitions or proofs."""
    if path.is_dir():
        return "\n".join(text_of(it) for it in sorted(path.rglob("*")) if it.is_file() and {"out", "target"}.isdisjoint(it.parts))
    return text_of(path if path.exists() else path.with_name(path.name + ".antt"))


def in_map(page, path):
    """Where a path of a map leads: from the page's folder, from `crates`, or from the top."""
    return next((it for it in (page.parent / path, ROOT / "crates" / path, ROOT / path, page.parent / "src" / path) if is_there(it)), None)


def entries(page):
    """The entries of a page's maps, which begin in bold at the start of a line, each with what is under it."""
    text = text_of(page)
    begin = re.search(MAPS.get(named(page), "^## To change$"), text, re.M)
    if begin:
        part = re.split(r"^## ", text[begin.end():], maxsplit=1, flags=re.M)[0]
        for entry in re.split(r"^(?=(?:- )?\*\*)", part, flags=re.M)[1:]:
            yield re.sub(r"\n\n(?![-*]).*", "", entry, flags=re.S)


@functools.cache
def all_texts():
    """The sources that a pattern of a map is looked for in, by path."""
    folders = ("crates", "bindings", "tools")
    paths = [path for folder in folders for path in (ROOT / folder).rglob("*") if path.suffix not in (".md", ".json") and not {"out", "target"} & set(path.parts)]
    return {path: path.read_text(encoding="utf-8", errors="replace") for path in paths if path.is_file()}


def maps():
    """Of the maps of what a change touches: files that aren't there, items that their file hasn't, patterns that no source has, and entries without any."""
    for page in NOTES + [ROOT / name for name in MAPPED]:
        for entry in entries(page):
            about = f"{named(page)}: {entry.split(chr(10))[0][:60]}"
            for path in re.findall(r"`((?:[\w.-]+/)+[\w.-]+)`", entry):
                if in_map(page, path) is None:
                    yield f"{about}: {path} isn't there"
            found = 0
            for items, path in re.findall(r"(`[^`\n]+`(?:(?:, | and )`[^`\n]+`)*) in `([\w./-]+)`", entry):
                there = in_map(page, path)
                if there is None:
                    yield f"{about}: {path} isn't there"
                    continue
                text = text_at(there)
                for item in re.findall(r"`([^`]+)`", items):
                    found += 1
                    if not in_map(page, item) and not re.search(rf"(?<!\w){re.escape(item)}(?!\w)", text):
                        yield f"{about}: {path} has no {item}"
            for pattern in re.findall(r"\bgrep `([^`]+)`", entry):
                found += 1
                if not any(pattern in text for text in all_texts().values()):
                    yield f"{about}: no source has {pattern}"
            if not found and "](" not in entry and page.name != "ARCHITECTURE.md":
                yield f"{about}: names no item of a file"


def words_of_sources():
    """All words of the sources, of the definitions and of the header for C."""
    found = set()
    for pattern in ("crates/*/src/**/*.rt", "crates/*/specs/*.antt", "bindings/c/*.h"):
        for path in ROOT.glob(pattern):
            found |= set(re.findall(r"\w+", text_of(path)))
    return found


def glossary():
    """Bold words of the glossary that no source has."""
    page = ROOT / "docs/GLOSSARY.md"
    text = " ".join(re.findall(r"[a-z']+", "\n".join(it for path, it in all_texts().items() if "proofs" not in path.parts).lower()))
    words = set(text.split())
    for bold in re.findall(r"\*\*([^*]+)\*\*", text_of(page)):
        for word in bold.lower().split(", "):
            if word not in text if " " in word else not {word, word + "s", word + "es"} & words:
                yield f"{named(page)}: {word}"


def names():
    """Names that PROVED tells and that no source has."""
    page, known = ROOT / "docs/PROVED.md", words_of_sources()
    for name in sorted(set(re.findall(r"`(\w+(?:::\w+)*)`", text_of(page)))):
        if any(word not in known for word in name.split("::")):
            yield f"{named(page)}: {name}"


def long_rows():
    """Rows of tables that nobody reads to their end."""
    for page in TOP + PAGES + OTHERS + NOTES:
        for line in without_code(text_of(page)).splitlines():
            if line.startswith("|") and len(line) > LONGEST_ROW:
                yield f"{named(page)}: {len(line)} characters: {line[:60]} .."


def clauses(path):
    """The lines of a file of definitions, or those of the contracts of a file of code; no imports, no comments, no texts."""
    within = 0
    for line in text_of(path).splitlines():
        start = re.match(r"\s*(requires|ensures\*?|ghost (?!use)\w+|invariant|decreases)\b.*\{", line)
        if path.suffix == ".antt" or within or start:
            within = max(0, within + line.count("{") - line.count("}")) if path.suffix == ".rt" else 0
            if not re.match(r"\s*((pub )?use |--|//)", line) and len(re.sub(r'"(\\.|[^"\\])*"', "", line)) == len(line):
                yield line


def wide_clauses():
    """Lines of contracts and definitions that don't fit beside another file."""
    for pattern in ("crates/*/src/**/*.rt", "crates/*/specs/*.antt"):
        for path in sorted(ROOT.glob(pattern)):
            yield from (f"{named(path)}: {len(line)} columns: {line.strip()[:60]} .." for line in clauses(path) if len(line) > WIDEST_CLAUSE)


def made():
    """Pages that aren't what their script writes."""
    if text_of(definitions.PAGE) != definitions.page():
        yield "docs/DEFINITIONS.md isn't what tools/definitions.py writes: run it"
    if text_of(crates_picture.PICTURE) != crates_picture.picture():
        yield "docs/crates.svg isn't what tools/crates_picture.py writes: run it"
    yield from measured.stale()


def files_of(folder):
    """The files of a crate, with their texts, by their names; what a check left is no part of it, and its notes aren't copied."""
    paths = [path for path in folder.rglob("*") if path.is_file() and "out" not in path.relative_to(folder).parts]
    return {str(path.relative_to(folder)): text_of(path) for path in paths if path != folder / "README.md"}


def begun():
    """Where a crate that tools/begin makes isn't the sample under another name."""
    sample, name = ROOT / "crates" / "logsample", "a_begun_crate"
    with tempfile.TemporaryDirectory() as made:
        there = pathlib.Path(made)
        shutil.copytree(sample, there / "crates" / "logsample", ignore=shutil.ignore_patterns("out"))
        (there / "tools").mkdir()
        shutil.copy2(ROOT / "tools" / "begin", there / "tools")
        shutil.copy2(ROOT / "crates.txt", there)
        run = subprocess.run([there / "tools" / "begin", name], capture_output=True, text=True, check=False)
        if run.returncode:
            yield f"tools/begin: {run.stderr.strip()}"
            return
        found = {path: text.replace(name, "logsample") for path, text in files_of(there / "crates" / name).items()}
        due = files_of(sample)
        yield from (f"tools/begin: {path} differs" for path in sorted(found.keys() | due.keys()) if found.get(path) != due.get(path))
        if f"\n{name}: " not in text_of(there / "crates.txt"):
            yield "tools/begin: no line in crates.txt"


def main():
    bad = 0
    tests = (("links", links), ("snippets", snippets), ("figures", figures), ("figures at home", strays), ("versions", versions), ("the edits' rows", wrong_bodies), ("names of files", paths), ("the crates' READMEs", notes), ("the maps", maps), ("names of definitions", names), ("the glossary's words", glossary), ("rows of tables", long_rows), ("lines of contracts", wide_clauses), ("pages that scripts write", made), ("the crate that tools/begin makes", begun))
    for name, test in tests:
        faults = list(test())
        bad += bool(faults)
        print(f"FAIL {name}" if faults else f"ok   {name}")
        for fault in faults:
            print(f"     {fault}")
    sys.exit(1 if bad else 0)


if __name__ == "__main__":
    main()
