"""Tells of each must-fail edit what refused it: a clause of a contract, a proof by hand that doesn't fit any more, or a name that is gone.

Usage, at the top of the repository:

    python3 tools/edits.py LOG..              of the outputs of `rt ci` or `rt must-fail` in these files: a row for each edit
    python3 tools/edits.py --each CRATE/NAME  tries each pair of an edit alone, by `rt must-fail`

A refusal's first line names a goal that is open. In a source it is a clause that no proof answers: the contract refuses the body. In a
file of proofs a proof by hand was tried and doesn't fit: the row has the goal that it answers, which is a clause too, but another proof might fit
the body. Where the proof only names what the edit took away, nothing is said of the contract.
"""

import pathlib
import re
import subprocess
import sys

ROOT = pathlib.Path(__file__).resolve().parent.parent
SAID = re.compile(r"^rt: must-fail (\w+)/([\w.-]+)\.edit: (.*)$", re.M)
PLACE = re.compile(r"(?:note: )?(?:\./)?((?:src|specs|proofs)/\S+?):(\d+):\d+: ?(.*)")


def goal_above(crate, path, line):
    """Returns the name of the last goal that is declared at or above a line of a file of proofs, or none."""
    found = None
    for text in (ROOT / "crates" / crate / path).read_text(encoding="utf-8").split("\n")[:line]:
        declared = re.match(r"(?:abbrev )?(?:pub )?(\S+) : goal\.\1", text)
        found = declared[1] if declared else found
    return found


def function_above(crate, path, line):
    """Returns the name of the function in whose text a line of a source stands, or none."""
    found = None
    for text in (ROOT / "crates" / crate / path).read_text(encoding="utf-8").split("\n")[:line]:
        declared = re.match(r"\s*(?:pub(?:\(crate\))? )?(?:unsafe )?fn (\w+)", text)
        found = declared[1] if declared else found
    return found


def refusal(crate, said):
    """Returns the kind of a refusal, and what it names."""
    if "BAD EDIT" in said or "NOT TRIED" in said or "NOT REFUSED" in said:
        return "nothing", said[:100]
    place = PLACE.search(said)
    if "only because a proof file names" in said:
        return "name", f"{place[1]}" if place else ""
    if "only by a limit" in said or not place:
        return "limit", said[:100]
    path, line, what = place[1], int(place[2]), place[3]
    if path.startswith("proofs/"):
        folder = pathlib.PurePath(path).parent.name
        goal = goal_above(crate, path, line)
        return "proof", f"`{goal}` of `{folder}`" if goal else f"`{path}`"
    if path.startswith("specs/"):
        return "definition", f"`{path}`"
    goal = re.search(r"\(`([^`]*)`?", what)
    return "clause", f"`{function_above(crate, path, line)}`: {f'`{goal[1]}`' if goal else what}"


def table(logs):
    """Prints a row for each edit of these texts, and how many there are of each kind."""
    rows = {}
    for log in logs:
        for crate, name, said in SAID.findall(log):
            rows[crate, name] = refusal(crate, said)
    print("| edit | refused by | where |\n|---|---|---|")
    for (crate, name), (kind, where) in sorted(rows.items()):
        print(f"| `{crate}/{name}` | {kind} | {where} |")
    kinds = [kind for kind, _ in rows.values()]
    print("\n" + ", ".join(f"{kind} {kinds.count(kind)}" for kind in sorted(set(kinds))))


def each(crate, name):
    """Tries each pair of an edit alone, and prints a row for each."""
    folder = ROOT / "crates" / crate / "must-fail"
    path, pairs, old = "", [], ""
    for line in (folder / f"{name}.edit").read_text(encoding="utf-8").split("\n"):
        if line.startswith("file: "):
            path = line
        elif line.startswith("old: "):
            old = line
        elif line.startswith("new:"):
            pairs.append(f"{path}\n{old}\n{line}\n")
    alone = [folder / f"{name}-{number}.edit" for number in range(1, len(pairs) + 1)]
    try:
        for file, text in zip(alone, pairs):
            file.write_text(text, encoding="utf-8")
        ran = subprocess.run(["rt", "must-fail", crate], cwd=ROOT, stdout=subprocess.PIPE, text=True, check=False)
    finally:
        for file in alone:
            file.unlink(missing_ok=True)
    table(["\n".join(line for line in ran.stdout.split("\n") if f"{crate}/{name}-" in line)])


if __name__ == "__main__":
    if sys.argv[1:2] == ["--each"] and len(sys.argv) == 3 and "/" in sys.argv[2]:
        each(*sys.argv[2].split("/"))
    elif len(sys.argv) > 1 and not sys.argv[1].startswith("-"):
        table([pathlib.Path(log).read_text(encoding="utf-8", errors="replace") for log in sys.argv[1:]])
    else:
        sys.exit(__doc__)
