"""Of docs/benchmark.json, which tools/bench/table measures: the tables between the marks of pages, and the charts. Nothing is measured here.

A page says where a table goes by `<!-- made: NAME -->` and `<!-- end -->`.
"""
import json
import pathlib
import re
import statistics

import charts
from rows import COLUMNS, HEAP, INSTRUCTIONS, OBJECTS, PROVED_ALONE, ROUNDS, ROWS, TAILS, TAIL_THREADS, THREADS

ROOT = pathlib.Path(__file__).resolve().parent.parent.parent
RAW = ROOT / "docs" / "benchmark.json"
PAGES = [ROOT / name for name in ("docs/BENCHMARK.md", "README.md", "bindings/rust/README.md", "docs/C.md")]
MARKED = re.compile(r"(<!-- made: ([\w-]+) -->\n).*?(<!-- end -->)", re.S)

# The rows of README's two tables: what they say there, and the part.
CRATE_ROWS = [
    ("get, read, drop", "get-many@1"),
    ("the same by `get_owned`", "owned-get-many@1"),
    ("the same on 4 threads, each with its own keys", "get-many@4"),
    ("create, fill, publish, clear", "cycle@1"),
    ("the same by `create_owned`", "owned-cycle@1"),
    ("the same on 4 threads", "cycle@4"),
    ("the oldest of 1,000 objects cleared, and a new one published", "churn-1000@1"),
    ("a pool opened, filled with a hundred objects and dropped", "hundred@1"),
]
PROVED_ROWS = [
    ("get, read, release", "get-many@1"),
    ("the same on 4 threads, each with its own keys", "get-many@4"),
    ("the same on 4 threads, all with one key", "get-shared@4"),
    ("create, fill, publish, clear", "cycle@1"),
    ("the same on 4 threads", "cycle@4"),
]
# The rows of the cost from C: instructions by the round, nanoseconds by the part.
C_INSTRUCTIONS = [("a get and a release, instructions", "get-many"), ("a put and a clear", "cycle"), ("create, append, publish, clear", "calls")]
C_TIMES = [("a get and a release, ns", "get-many@1"), ("a put and a clear, ns", "cycle@1")]
SPREAD = (0.25, 0.75)


def read():
    """What was measured."""
    return json.loads(RAW.read_text(encoding="utf-8")) if RAW.exists() else {"host": None, "parts": {}}


def write(raw):
    """Writes what was measured, a line for each column of a part."""
    lines = ["{", f' "host": {json.dumps(raw["host"])},', ' "parts": {']
    for name, part in raw["parts"].items():
        lines.append(f'  "{name}": {{"commit": "{part["commit"]}", "date": "{part["date"]}", "found": {{')
        lines += [f'   "{key}": {json.dumps(it)},' for key, it in part["found"].items()]
        lines[-1] = lines[-1].removesuffix(",") + "}},"
    lines[-1] = lines[-1].removesuffix(",") + "}}"
    RAW.write_text("\n".join(lines) + "\n", encoding="utf-8")


def number(value):
    """A figure as a page writes it."""
    return f"{value:,.0f}" if value >= 9.95 else f"{value:.1f}"


def table(head, rows):
    """The lines of a table; columns that nothing stands in are left out."""
    kept = [at for at in range(len(head)) if at == 0 or any(row[at] for row in rows)]
    lines = [[head[at] for at in kept], ["---"] + ["--:"] * (len(kept) - 1)] + [[row[at] for at in kept] for row in rows]
    return "".join("| " + " | ".join(line) + " |\n" for line in lines).replace("|  |", "| |").replace("|  |", "| |")


class Figures:
    """What was measured, as tables."""

    def __init__(self, raw):
        self.raw, self.parts = raw, {name: it["found"] for name, it in raw["parts"].items()}

    def ns(self, part, column):
        """The nanoseconds of a round: the median of the turns. None if they weren't measured."""
        turns = self.parts.get(part, {}).get(column)
        return statistics.median(turns) if turns else None

    def ratios(self, part, column):
        """In each turn, the time as a share of the slab's in the same turn."""
        found = self.parts.get(part, {})
        if column not in found or "slab" not in found:
            return None
        return [one / slab for one, slab in zip(found[column], found["slab"])]

    def ratio(self, part, column):
        """The median of the ratios."""
        ratios = self.ratios(part, column)
        return statistics.median(ratios) if ratios else None

    def ns_cell(self, part, column):
        value = self.ns(part, column)
        return "" if value is None else number(value)

    def ratio_cell(self, part, column):
        value = self.ratio(part, column)
        return "" if value is None else f"{value:.2f}"

    def host_lines(self):
        """On what, when, and of which commit."""
        parts = self.raw["parts"].values()
        dates, commits = sorted({it["date"] for it in parts}), sorted({it["commit"] for it in parts})
        it = self.raw["host"]
        of = "commit " + " and ".join(f"`{commit}`" for commit in commits)
        machine = " of a virtual machine" if it["virtual"] else ""
        return f"{it['processor']}, {it['processors']} processors{machine}; rustc {it['rustc']}; {of}; {' and '.join(dates)}.\n"

    def rounds(self):
        return table(["row", "what each thread does in a round"], [[f"`{name}`", text] for name, text in ROUNDS.items()]).replace("--:", "---")

    def of_rows(self, cell, columns):
        """A table of all rows but those of the chart by threads, which has its own."""
        rows = [row for row in ROWS if row.name not in ("get-many", "cycle") or row.threads in (1, 4, 200)]
        return table([""] + [COLUMNS[it][0] for it in columns], [[row.head()] + [cell(row.key, it) for it in columns] for row in rows])

    def by_threads(self, name):
        columns = [it for it in COLUMNS if it != "vec"]
        rows = [[str(threads)] + [self.ns_cell(f"{name}@{threads}", it) for it in columns] for threads in THREADS]
        return table(["threads"] + [COLUMNS[it][0] for it in columns], rows)

    def instructions(self):
        found = self.parts.get("instructions", {})
        rows = [[f"`{name}`"] + [f"{found[name][it]:,}" if it in found.get(name, {}) else "" for it in COLUMNS] for name in INSTRUCTIONS]
        return table([""] + [COLUMNS[it][0] for it in COLUMNS], rows)

    def proved_alone(self):
        found = self.parts.get("instructions", {})
        return table(["the proved pool", "instructions"], [[text, f"{found[name]['proved']:,}"] for name, text in PROVED_ALONE.items() if name in found])

    def tails(self, name):
        rows = []
        for threads, _ in TAIL_THREADS:
            for at, told in enumerate(("p50", "p99", "p99.9")):
                it = self.parts.get(f"tails-{name}@{threads}", {})
                clock = self.parts.get(f"tails-nothing@{threads}", {}).get("crate")
                cells = [number(it[column][at]) if column in it else "" for column in TAILS]
                rows.append([f"{threads} thread{'s' * (threads > 1)}, {told}", *cells, number(clock[at]) if clock else ""])
        return table([""] + [COLUMNS[it][0] for it in TAILS] + ["the clock alone"], rows)

    def heap(self):
        found = self.parts.get("heap", {})
        rows = [[f"{count:,}"] + [number(found[str(count)][it] / count) if it in found.get(str(count), {}) else "" for it in HEAP] for count in OBJECTS]
        return table(["objects"] + [COLUMNS[it][0] for it in HEAP], rows)

    def bytes_of(self, column, count):
        """The bytes of the heap for each of so many objects."""
        return self.parts["heap"][str(count)][column] / count

    def readme(self, rows, columns):
        return table([""] + [COLUMNS[it][0] for it in columns], [[text] + [self.ns_cell(part, it) for it in columns] for text, part in rows])

    def from_c(self):
        columns, counts = ("c", "proved", "slab"), self.parts.get("instructions", {})
        rows = [[text] + [str(counts.get(name, {}).get(it, "")) for it in columns] for text, name in C_INSTRUCTIONS]
        rows += [[text] + [self.ns_cell(part, it) for it in columns] for text, part in C_TIMES]
        return table(["", "from C", "from Rattle", "sharded-slab"], rows)

    def of_page(self):
        """All tables by their names."""
        times, shares = ("proved", "guest", "c", "crate", "lane", "module", "vec", "slab", "mutex", "queue", "arc"), ("proved", "crate", "lane", "module", "vec", "mutex", "arc")
        return {
            "host": self.host_lines(),
            "rounds": self.rounds(),
            "ratios": self.of_rows(self.ratio_cell, shares),
            "ns": self.of_rows(self.ns_cell, times),
            "threads-get": self.by_threads("get-many"),
            "threads-cycle": self.by_threads("cycle"),
            "instructions": self.instructions(),
            "proved-alone": self.proved_alone(),
            "tails-get": self.tails("get"),
            "tails-cycle": self.tails("cycle"),
            "heap": self.heap(),
            "readme-crate": self.readme(CRATE_ROWS, ("crate", "slab", "mutex")),
            "readme-proved": self.readme(PROVED_ROWS, ("proved", "slab", "mutex", "arc")),
            "crate-page": self.crate_page(),
            "from-c": self.from_c(),
        }

    def crate_page(self):
        """The rows that the crate's page shows, as shares of the slab's time."""
        columns = ("crate", "lane", "module")
        rows = [row for row in ROWS if row.threads in (1, 2, 4) and any(self.ratio(row.key, it) for it in columns)]
        return table([""] + [COLUMNS[it][0] for it in columns], [[row.head()] + [self.ratio_cell(row.key, it) for it in columns] for row in rows])

    def charts(self):
        """Both charts by their names."""
        shown = ("proved", "crate", "lane", "module")
        rows = [row for row in ROWS if row.threads <= 4 and (row.name, row.threads) not in (("get-many", 2), ("cycle", 2))]
        ratios = []
        for row in rows:
            dots = {}
            for column in shown:
                turns = self.ratios(row.key, column)
                if turns:
                    ordered = sorted(turns)
                    low, high = (ordered[round(part * (len(ordered) - 1))] for part in SPREAD)
                    dots[column] = (statistics.median(turns), low, high)
            if dots:
                ratios.append((row.head().replace("`", ""), dots))
        lines = ("proved", "crate", "module", "slab", "mutex", "queue", "arc")
        by_threads = {}
        for name in ("get-many", "cycle"):
            points = {it: [(threads, self.ns(f"{name}@{threads}", it)) for threads in THREADS if self.ns(f"{name}@{threads}", it)] for it in lines}
            by_threads[name] = {it: line for it, line in points.items() if line}
        heads = {it: COLUMNS[it][0].replace("`", "") for it in COLUMNS}
        return {"benchmark-ratios.svg": charts.ratios(ratios, heads), "benchmark-threads.svg": charts.by_threads(by_threads, heads)}


def with_tables(text, tables):
    """A page with its tables as they are to be."""
    return MARKED.sub(lambda found: f"{found[1]}{tables[found[2]]}{found[3]}" if found[2] in tables else found[0], text)


def made():
    """The pages and charts as they are to be, by path."""
    found = Figures(read())
    tables = found.of_page()
    due = {path: with_tables(path.read_text(encoding="utf-8"), tables) for path in PAGES}
    return due | {ROOT / "docs" / name: text for name, text in found.charts().items()}


def stale():
    """What differs from what is made, a line for each."""
    for path, due in made().items():
        here = path.read_text(encoding="utf-8") if path.exists() else ""
        if here != due:
            line = next((at + 1 for at, (one, other) in enumerate(zip(here.splitlines(), due.splitlines())) if one != other), 0)
            yield f"{path.relative_to(ROOT)}, line {line}, isn't what tools/bench/table make writes of docs/benchmark.json"
