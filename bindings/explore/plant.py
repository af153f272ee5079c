#!/usr/bin/env python3
"""Plants faults in a copy of the crate and of the C library, and has each found: by a scenario of the explorer, a test, or the compiler.

usage: plant.py LIST.. [--search] [--jobs N] [--only NUMBER..]

A list has for each fault the file (`c/` in front of one of the C library's), what is wrong then, a text that stands there once (`-`), of which what stands in « » is replaced, or
all, by what stands there then (`+`), and what finds it (`=`): `explore SCENARIO`, `old SCENARIO` (the same, where a look may find an old value), `test FILE NAME`, `address FILE NAME` (a test under AddressSanitizer), `misuse NUMBER HEADING` (lines of misuse.rs
that the compiler must refuse, counted from 1 behind the heading that begins so). White space doesn't count. All are planted in one copy, each by a branch on the number in
PLANTED, but for those whose texts overlap without that one has the other in it: these go to a further copy.

Without a fault each of those passes. With one it fails: a test by an assertion, not by a hang. --search tries all of them, and tells the first that finds a fault.
"""
import argparse
import collections
import concurrent.futures
import os
import re
import shutil
import subprocess
import sys
import tempfile
import threading
import time

HERE = os.path.dirname(os.path.abspath(__file__))
BINDINGS = os.path.dirname(HERE)
PLANTED = '''
/// Which fault is planted: that of the number in the environment. (No memory is asked for, which a test may refuse.)
#[allow(unsafe_code)]
pub fn planted(number: u32) -> bool {
    extern "C" {
        fn getenv(name: *const std::ffi::c_char) -> *const std::ffi::c_char;
    }
    static PLANTED: std::sync::OnceLock<u32> = std::sync::OnceLock::new();
    let read = || {
        // SAFETY: the name ends with a null, and nobody changes the environment.
        let found = unsafe { getenv(c"PLANTED".as_ptr()) };
        // SAFETY: it points to a text that ends with a null.
        let found = (!found.is_null()).then(|| unsafe { std::ffi::CStr::from_ptr(found) });
        found.map_or(0, |text| text.to_str().expect("ASCII").parse().expect("a number"))
    };
    *PLANTED.get_or_init(read) == number
}
'''
# A search passes by the scenarios that take longer.
SECONDS_OF_A_SEARCH = 1
TESTS_OF_A_SEARCH = ("threads", "callbacks", "panics", "objects", "handles", "pools", "types", "refused", "random")
SCENARIOS_ALONE = "SCENARIOS_ALONE" in os.environ
# A program of which few seconds are run isn't worth more to its compiler.
QUICK = ["-Copt-level=0"]
# A test that runs longer than this hangs, and no test with a fault waits longer for a thread.
SECONDS = 240
SECONDS_OF_A_TEST = 30
# In a search one that runs longer isn't worth to be named.
MOST_SECONDS_OF_A_SEARCH = 10
# So many schedules of a scenario are run where no fault is planted: `scenarios` runs them all.
SCHEDULES_WITHOUT_A_FAULT = 200



class Fault(collections.namedtuple("Fault", "number file what old new finder")):
    def is_of_types(self):
        """Whether the compiler alone sees it: such can't be branched on, and tell of types that don't meet."""
        return self.finder.startswith("misuse ")


def read_faults(lists):
    faults = []
    for path in lists:
        with open(path, encoding="utf-8") as file:
            text = re.sub(r"^#.*\n", "", file.read(), flags=re.M)
        for part in re.split(r"\n\s*\n", text.strip()):
            lines = part.strip().split("\n")
            file, what = lines[0].split(": ", 1)
            take = lambda sign: "\n".join(line[2:] for line in lines[1:] if line[:1] == sign)
            number = len(faults) + 1
            faults.append(Fault(number, file, what, take("-"), take("+"), take("=")))
    return faults


def place_of(fault, text):
    """Where the fault's text stands, which is once."""
    old = fault.old if "«" in fault.old else f"«{fault.old}»"
    words = [re.escape(word) for word in re.sub(r"([«»])", r" \1 ", old).split()]
    pattern = r"\s*".join(words).replace(r"«\s*»", "()").replace(r"«\s*", "(").replace(r"\s*»", ")")
    found = list(re.finditer(pattern, text))
    if len(found) != 1:
        sys.exit(f"FAIL {fault.number} {fault.file}: {fault.what}: its text stands there {len(found)} times")
    return found[0].span(1)


def branch(fault, old, inside):
    """A text with a branch on the fault. `inside` is the text with the branches that stand in it."""
    if not old:
        return f"if crate::planted({fault.number}) {{ {fault.new} }} {inside}"
    if old.rstrip()[-1] in ";}" and not old.lstrip().startswith("|"):
        return f"if crate::planted({fault.number}) {{ {fault.new} }} else {{ {inside} }}"
    return f"(if crate::planted({fault.number}) {{ {fault.new} }} else {{ {inside} }})"


def overlaps(one, other):
    """Whether two spans overlap without that one is in the other."""
    (start, end), (first, last) = sorted([one, other])
    return start < first < end < last


def is_within(span, outer):
    """Whether a span is in another one. One of no width is outside at its ends."""
    return span != outer and outer[0] <= span[0] and span[1] <= outer[1] and (span[0] < span[1] or outer[0] < span[0] < outer[1])


def planted_text(text, start, end, spans):
    """The text from `start` to `end` with a branch on each fault of the spans that stand there."""
    made, at = "", start
    for span in sorted(spans):
        if any(is_within(span, outer) for outer in spans):
            continue
        old = text[slice(*span)]
        planted = planted_text(text, *span, {inner: some for inner, some in spans.items() if is_within(inner, span)})
        for fault in spans[span]:
            planted = branch(fault, old, planted)
        made, at = made + text[at : span[0]] + planted, span[1]
    return made + text[at:end]


# Where the sources stand, in bindings and in each copy: of the C library those of files with this in front.
SOURCES = {"": os.path.join("rust", "src"), "c/": os.path.join("c", "library", "src")}


def source_of(file, folder):
    """The path of a file that a list names."""
    front = "c/" if file.startswith("c/") else ""
    return os.path.join(folder, SOURCES[front], file.removeprefix(front))


def plant(faults, folder):
    """Plants those that can be planted together, each with a branch, but for those that the compiler finds. Answers the others."""
    left, by_file = [], collections.defaultdict(list)
    for fault in faults:
        by_file[fault.file].append(fault)
    for name, some in by_file.items():
        path = source_of(name, folder)
        with open(path, encoding="utf-8") as file:
            text = file.read()
        spans = {}
        for fault in some:
            here = place_of(fault, text)
            meets = overlaps if not fault.is_of_types() else lambda one, other: one[0] <= other[1] and other[0] <= one[1]
            if any(meets(here, span) for span in spans):
                left.append(fault)
            else:
                spans.setdefault(here, []).append(fault)
        if some[0].is_of_types():
            for (start, end), (fault,) in sorted(spans.items(), reverse=True):
                text = text[:start] + fault.new + text[end:]
        else:
            text = planted_text(text, 0, len(text), spans)
        with open(path, "w", encoding="utf-8") as file:
            file.write(text)
    return left


class Build:
    """A copy of the crate with some faults, and its programs, which are built when they are wanted."""

    # All copies have one, in which no fault is planted.
    explorer = None

    def __init__(self, folder, faults):
        self.folder = folder
        self.rust = os.path.join(folder, "rust")
        ignore = shutil.ignore_patterns("target")
        shutil.copytree(os.path.join(BINDINGS, "rust"), self.rust, ignore=ignore)
        shutil.copytree(HERE, os.path.join(folder, "explore"), ignore=ignore)
        shutil.copytree(os.path.join(BINDINGS, SOURCES["c/"]), os.path.join(folder, SOURCES["c/"]))
        self.sources = os.path.join(self.rust, "src")
        self.faults = faults
        self.built = {}
        self.building = threading.Lock()

    def write(self):
        """Plants; answers the faults that need a copy of their own."""
        left = plant(self.faults, self.folder)
        for sources in SOURCES.values():
            with open(os.path.join(self.folder, sources, "lib.rs"), "a", encoding="utf-8") as file:
                file.write(PLANTED)
        with open(os.path.join(self.folder, "explore", "scenarios", "main.rs"), "a", encoding="utf-8") as file:
            file.write("use pardz::planted;\n")
        return left

    def program(self, kind, name=""):
        """The path of a program, and what the compiler says where it refuses it."""
        with self.building:
            if (kind, name) not in self.built:
                make = {"explore": self.make_scenarios, "test": self.make_test, "address": self.make_address}[kind]
                self.built[kind, name] = make(name)
            return self.built[kind, name]

    def rustc(self, *words):
        words = ["rustc", "--edition", "2021", "-Awarnings", "-Copt-level=1", "-Cdebug-assertions=on", "-L", self.folder, *words]
        env = dict(os.environ, RUSTC_BOOTSTRAP="1", CARGO_PKG_VERSION="0")
        made = subprocess.run(words, capture_output=True, text=True, env=env)
        return made.stderr if made.returncode else None

    def crate(self, name, flags, *words):
        """Builds the crate under this name."""
        out = os.path.join(self.folder, name)
        os.makedirs(out, exist_ok=True)
        library = os.path.join(out, "libpardz.rlib")
        wrong = None
        if not os.path.exists(library):
            wrong = self.rustc("--crate-type=rlib", "--crate-name=pardz", *flags, os.path.join(self.sources, "lib.rs"), "-o", library)
        return library, wrong

    def c_library(self, flags):
        """Builds the C library, for the scenarios."""
        out = os.path.join(self.folder, "libpardz_c.rlib")
        root = os.path.join(self.folder, SOURCES["c/"], "lib.rs")
        return out, self.rustc("--crate-type=rlib", "--crate-name=pardz_c", *QUICK, *flags, root, "-o", out)

    def make_scenarios(self, _):
        wrong = None
        folder = os.path.join(self.folder, "explore")
        if not Build.explorer:
            Build.explorer = os.path.join(self.folder, "libexplorer.rlib")
            wrong = self.rustc("--crate-type=rlib", "--crate-name=explorer", os.path.join(folder, "explorer", "lib.rs"), "-o", Build.explorer)
        extern = f"--extern=explorer={Build.explorer}"
        library, more = self.crate("explored", ["--cfg=pardz_explore", extern])
        externs = ["-L", os.path.dirname(Build.explorer), "-L", os.path.dirname(library), extern, f"--extern=pardz={library}"]
        of_c, more_of_c = self.c_library(["--cfg=pardz_explore", *externs]) if not more else (None, None)
        out = os.path.join(self.folder, "scenarios")
        main = os.path.join(folder, "scenarios", "main.rs")
        wrong = wrong or more or more_of_c or self.rustc(*QUICK, *externs, f"--extern=pardz_c={of_c}", main, "-o", out)
        return out, wrong

    def make_test(self, name):
        library, wrong = self.crate("tested", [])
        out = os.path.join(self.folder, "test_" + name)
        source = os.path.join(self.rust, "tests", name + ".rs")
        return out, wrong or self.rustc("--test", *QUICK, f"--extern=pardz={library}", source, "-o", out)

    def make_address(self, name):
        flags = ["-Zsanitizer=address", "-Cunsafe-allow-abi-mismatch=sanitizer", "--target=x86_64-unknown-linux-gnu"]
        library, wrong = self.crate("addresses", flags)
        out = os.path.join(self.folder, "address_" + name)
        source = os.path.join(self.rust, "tests", name + ".rs")
        return out, wrong or self.rustc("--test", *QUICK, *flags, f"--extern=pardz={library}", source, "-o", out)

    def misuse(self, number, heading):
        """What the compiler says where it refuses some lines."""
        library = os.path.join(self.folder, "libpardz.rmeta")
        if "types" not in self.built:
            root = os.path.join(self.sources, "lib.rs")
            self.built["types"] = self.rustc("--emit=metadata", "--crate-type=rlib", "--crate-name=pardz", root, "-o", library)
        wrong = self.built["types"]
        if wrong:
            return wrong
        source = os.path.join(self.folder, f"misuse{number}.rs")
        with open(source, "w", encoding="utf-8") as file:
            file.write("fn main() {\n" + misuses(self.sources, heading)[number - 1] + "\n}\n")
        return self.rustc("--emit=metadata", f"--extern=pardz={library}", source, "-o", source + ".out")


def misuses(sources, heading):
    """The lines of misuse.rs that the compiler must refuse, behind a heading."""
    with open(os.path.join(sources, "misuse.rs"), encoding="utf-8") as file:
        text = re.sub(r"^//! ?", "", file.read(), flags=re.M)
    text = text[text.index("\n" + heading) :]
    found = re.findall(r"^```compile_fail\S*\n(.*?)^```", text, flags=re.M | re.S)
    return [re.sub(r"^# ", "", lines, flags=re.M) for lines in found]


def run(build, finder, number, most=SECONDS):
    """What a finder says with a fault planted: None where it passes."""
    kind, *words = finder.split(" ")
    if kind == "misuse":
        refused = build.misuse(int(words[0]), " ".join(words[1:]))
        return None if refused else "it compiles"
    is_scenario = kind in ("explore", "old")
    program, wrong = build.program(*(("explore", "") if is_scenario else (kind, words[0])))
    if wrong:
        sys.exit(f"FAIL {finder}: {wrong}")
    command = [program, words[0]] if is_scenario else [program, "--exact", "--test-threads=1", words[1]]
    if kind == "old":
        command[1:1] = ["--old"]
    if is_scenario and number == 0:
        command[1:1] = ["--at-most", str(SCHEDULES_WITHOUT_A_FAULT)]
    env = dict(os.environ, PLANTED=str(number), RUST_BACKTRACE="0", ASAN_OPTIONS="detect_leaks=0")
    env["PARDZ_TEST_SECONDS"] = str(SECONDS_OF_A_TEST)
    try:
        made = subprocess.run(command, capture_output=True, text=True, errors="replace", timeout=most, env=env)
    except subprocess.TimeoutExpired:
        return "HANGS"
    if not is_scenario and "running 1 test" not in made.stdout:
        sys.exit(f"FAIL {finder}: there is no such test: {made.stdout}{made.stderr}")
    if made.returncode == 0:
        return None
    return what_is_told(made)


def what_is_told(made):
    text = made.stdout + made.stderr
    for pattern in (r"FAIL [\w-]+: (?:.*? steps: )?(.*)", r"AddressSanitizer: (\S+)", r"panicked at [^\n]*\n([^\n]*)", r"(test result: FAILED)"):
        found = re.search(pattern, text)
        if found:
            return found.group(1)[:110]
    return f"status {made.returncode}"


def candidates(build):
    """Finders that a search tries."""
    program, wrong = build.program("explore")
    if wrong:
        sys.exit(wrong)
    names = subprocess.run([program, "--list"], capture_output=True, text=True, check=True).stdout.split()
    found = []
    for name in names:
        start = time.time()
        if run(build, f"explore {name}", 0):
            sys.exit(f"FAIL explore {name} without a fault")
        found.append((time.time() - start, f"explore {name}"))
    found = [finder for seconds, finder in sorted(found) if seconds < SECONDS_OF_A_SEARCH]
    for test in TESTS_OF_A_SEARCH:
        with open(os.path.join(build.rust, "tests", test + ".rs"), encoding="utf-8") as file:
            text = file.read()
        found += [] if SCENARIOS_ALONE else [f"test {test} {name}" for name in re.findall(r"#\[test\]\n(?:#\[should_panic[^\n]*\n)?fn (\w+)", text)]
    return found


def judge(build, fault, search):
    """The line of a fault, and whether it was found."""
    where = f"{fault.number} {fault.file}: {fault.what}"
    if search:
        told = ((finder, run(build, finder, fault.number, MOST_SECONDS_OF_A_SEARCH)) for finder in search)
        found = next((f"ok   {where}: {finder}: {said}" for finder, said in told if said not in (None, "HANGS")), None)
        return found or f"FAIL {where}: nothing finds it", bool(found)
    if not fault.finder:
        return f"FAIL {where}: the list doesn't say what finds it", False
    start = time.time()
    said = run(build, fault.finder, fault.number)
    if said is None or said == "HANGS":
        return f"FAIL {where}: {fault.finder} {'hangs' if said else 'finds nothing'}", False
    return f"ok   {where}: {fault.finder}: {said} ({time.time() - start:.1f} s)", True


def main():
    parser = argparse.ArgumentParser(description=__doc__.split("\n\n")[0])
    parser.add_argument("lists", nargs="+")
    parser.add_argument("--search", action="store_true")
    parser.add_argument("--only", type=int, nargs="*")
    parser.add_argument("--jobs", type=int, default=2)
    words = parser.parse_args()
    faults = read_faults(words.lists)
    with tempfile.TemporaryDirectory() as folder:
        good = plant_all(folder, faults, words)
    print(f"{good} of {len(words.only or faults)} faults are found")
    sys.exit(0 if good == len(words.only or faults) else 1)


def plant_all(folder, faults, words):
    wanted = lambda fault: not words.only or fault.number in words.only
    good, left, copies = 0, faults, 0
    while left:
        of_types = [fault for fault in left if fault.is_of_types()]
        together = [fault for fault in left if not fault.is_of_types()] or of_types
        build = Build(os.path.join(folder, str(copies)), together)
        apart = build.write()
        here = [fault for fault in together if fault not in apart]
        left = [fault for fault in left if fault not in here]
        copies += 1
        some = [fault for fault in here if wanted(fault)]
        if some:
            good += judge_all(build, some, words)
    return good


def judge_all(build, faults, words):
    finders = sorted({fault.finder for fault in faults if fault.finder and not fault.is_of_types()})
    for finder in [] if words.search else finders:
        said = run(build, finder, 0)
        if said:
            print(f"FAIL {finder} without a fault: {said}")
            return 0
    good = 0
    search = candidates(build) if words.search else []
    with concurrent.futures.ThreadPoolExecutor(words.jobs) as pool:
        for line, is_good in pool.map(lambda fault: judge(build, fault, search), faults):
            print(line, flush=True)
            good += is_good
    return good


if __name__ == "__main__":
    main()
