#!/usr/bin/env python3
"""Writes what is left of proved sources where all that proofs alone need is dropped: plain Rust.

usage: erase.py [--check] [--crates FOLDER] [--out FOLDER]

It reads the sources by tokens, knows each form that it drops or rewrites, and refuses any other with its file and line. It then
prints what it dropped and rewrote, by kind. With --check it writes nothing, and names each file that isn't what it would write.
rustfmt sets the lines.
"""
import argparse
import collections
import os
import re
import subprocess
import sys

sys.dont_write_bytecode = True
from forms import RUST_SIGNS, Parser, Refused, Source

ROOT = os.path.dirname(os.path.dirname(os.path.dirname(os.path.abspath(__file__))))

# What the crate uses, by files: `Type::name` is a function of a type. The rest isn't written.
USED = {
    "keybits/lib": (
        "Key Place PAGE_NUMBERS generation_of place_of shard_of tag_of Shape ShapeFault GREATEST_TAG LARGEST_FIRST_PAGE MOST_LANES MOST_PAGES"
        " Life State MARK_BIT ONE_COUNT ONE_GENERATION PUBLISHED_BIT claimable claimed is_hit is_present owes_claim"
    ),
    "keybits/place": "GREATEST_PLACE PAGE_NUMBERS Place Place::number shard_of place_of generation_of tag_of",
    "keybits/key": "Key Key::pack_tagged Key::number",
    "keybits/shape": (
        "MOST_LANES LARGEST_FIRST_PAGE MOST_PAGES MOST_PAGE_PLACES GREATEST_TAG Shape ShapeFault Shape::check_wide"
        " Shape::check_within Shape::page_size Shape::shard_places Shape::places_before is_first_page"
    ),
    "keybits/words": (
        "PUBLISHED_BIT MARK_BIT ONE_COUNT ONE_GENERATION State State::bits State::of_bits Life Life::word Life::of_word"
        " is_hit is_present owes_claim claimable claimed"
    ),
    "poolsteps/lib": "Spot Purpose",
    "poolsteps/grid": "Spot",
    "poolsteps/steps": (
        "Purpose Grid::enter Grid::enter_as Grid::leave Grid::leave_as Grid::mark Grid::mark_as Grid::claim Grid::claim_as"
    ),
    "poolsteps/at_once": "Grid::sweep Grid::sweep_as Grid::strike Grid::strike_as",
    "seatcalls/lib": "Ended Guest GuestRef",
    "seatcalls/at": "owed_by",
    "seatcalls/ended": "Ended Parted end",
    "seatcalls/guests": "Guest",
    "seatcalls/references": "GuestRef",
    "seatcalls/guest_get": "Guest::get_or_keep Guest::enter",
    "seatcalls/guest_clear": "Guest::clear_or_keep Guest::clear_at_once clear_by_steps unreferred",
    "seatcalls/guest_release": "GuestRef::release_or_keep GuestRef::leave",
}
USED = {file: names.split() for file, names in USED.items()}

# What the crate has by hand in `word.rs`, by where the sources have it.
BY_HAND = {("poolsteps", "Grid"), ("seatcalls", "Claimed"), ("seatcalls", "keep")}
# Of these a value is borrowed.
LENT = {("poolsteps", "Grid")}
# The type of the objects of a pool, and what is asked of it: no guest's call touches one.
OBJECT, OF_OBJECTS = "T", {"Clear", "Drop"}
# What a guest has for proofs alone, or for what isn't a step: his seat, his number, the shape that he knows, his share in the object, where
# objects stand. So begin a field, a parameter and an argument that have it, and these are the statements that do nothing else.
UNUSED = r"(?:pub \( crate \) )?(?:& )?(?:mut )?(?:hand|number|shape|share|directory)(?: : .*)?"
STATEMENTS = {
    "let mut hand = hand ;",
    "let mut hand = kept . into_hand ( ) ;",
    "let share = grid . out ( & mut hand , spot , number , number ) ;",
    "grid . settle ( & mut hand , spot , number , number , share ) ;",
}
# The steps on the word of a place, by the operation that each is at the table: what the crate calls.
STEPS = {
    "fetch_add :: < Enter": "enters(",
    "fetch_sub :: < Leave": "leaves(",
    "fetch_or :: < Mark": "marks(",
    "compare_exchange :: < Claim": "claims(",
    "compare_exchange :: < Sweep": "sweeps(",
    "compare_exchange :: < Strike": "strikes(",
}
STEP = r"self \. table \. shared \. (?P<step>\w+ :: < \w+) < J > > \( hand , LIVES_START \+ spot \. start as usize , "

# What steps are told that are told nothing.
BRAND = ("std::marker", "Brand")
# What a path may begin with beside the names of its file.
PRELUDE = {"Self", "u32", "u64"}
# Names of Rust's own that are known without an import, and that nothing else has.
TAKEN = set("Box Clone Copy Drop Err From None Ok Option Result Send Some Sync Vec bool char str u8 u16 u32 u64 usize".split())
DERIVES = {"Clone", "Copy", "Debug", "PartialEq", "Eq", "Drop"}
ATTRIBUTES = {"inline", "cold", "derive", "tactic"}
KEYWORDS = set(
    "as break const continue crate else enum false fn for if impl in let loop match mod move mut pub ref return Self self struct super"
    " true type use where while".split()
)
# What begins an item: one inside of a body could take the name of another.
ITEM_WORDS = set("const enum fn impl mod struct trait type use".split())
# Calls of which Rattle's answer a result, since memory may be refused.
CLONES = {"clone", "clone_from", "cloned"}
REFUSED_WORDS = set("async await box dyn extern macro_rules static try union unsafe yield ghost requires ensures".split())
WRITTEN = ("struct", "enum", "fn", "const")


class Eraser:
    """The erased text of all files."""

    def __init__(self, crates_folder, used=None):
        """Of all that is used of the crates."""
        self.used = collections.defaultdict(list, USED if used is None else used)
        self.crates = sorted({file.split("/")[0] for file in self.used})
        self.counts = collections.Counter()
        self.sources = {}
        for crate in self.crates:
            folder = os.path.join(crates_folder, crate, "src")
            for name in sorted(os.listdir(folder)):
                if not name.endswith(".rt"):
                    raise Refused(f"crates/{crate}/src/{name}: no source of Rattle")
                source = Source(crate, name[:-3], os.path.join(folder, name), f"crates/{crate}/src/{name}")
                source.items = Parser(source).items(0, len(source.tokens), "file")
                self.sources[crate, name[:-3]] = source
        for source in self.sources.values():
            self.read_names(source)
        self.look_at_names()

    def texts(self):
        """The text of each file, by its path under the folder of the output."""
        kept = {key: source for key, source in self.sources.items() if self.used["/".join(key)]}
        for source in kept.values():
            self.erase(source)
        for (crate, _), source in kept.items():
            self.scan(source)
            self.imports(source, {m for c, m in kept if c == crate})
        out = {f"{crate}/{'mod' if module == 'lib' else module}.rs": finish(source) for (crate, module), source in kept.items()}
        out["mod.rs"] = root_module(self.crates)
        return out

    def is_used(self, source, item, of=None):
        """Whether the crate has a use for an item of a file, or for a function of a type."""
        names = self.used[f"{source.crate}/{source.module}"]
        if item.kind == "impl":
            return not item.trait and any(self.is_used(source, part, item) for part in item.items if part.kind == "fn")
        if item.kind not in WRITTEN or not of and is_law(item):
            return False
        return (f"{of.name}::{item.name}" if of else item.name) in names

    # Names

    def read_names(self, source):
        """What each name of a file is: its crate or folder, and its name there."""
        for item in source.items:
            if item.kind == "use":
                if item.attributes:
                    source.refuse(item.start, "an attribute of an import")
                for path, name, alias, (a, _) in self.use_parts(source, item):
                    self.name(source, a, alias, (self.home(source, path), name))
            elif item.kind in (*WRITTEN, "trait", "type"):
                self.name(source, item.start, item.name, (source.crate, item.name))

    def name(self, source, i, name, home):
        if name in TAKEN and not home[0].startswith("std"):
            source.refuse(i, f"{name}, which is a name of Rust's own")
        if source.scope.setdefault(name, home) != home:
            source.refuse(i, f"{name} stands for two things")

    def home(self, source, path):
        head = path.split("::")[0]
        if head == "crate" or source.module == "lib" and (source.crate, head) in self.sources:
            return source.crate
        return head if head in self.crates else path

    def use_parts(self, source, item):
        """(path, name, alias, range) of each name of an import."""
        i, end = item.body
        path, start = [], i
        while source.at(i + 1) == "::":
            path.append(source.at(i))
            i += 2
        if source.at(i) != "{":
            ranges = [(i, end)]
        else:
            if source.close[i] + 1 != end:
                source.refuse(i, "a form of use")
            ranges = source.split(i + 1, source.close[i])
        parts = []
        for a, b in ranges:
            renamed = b - a == 3 and source.at(a + 1) == "as"
            if not source.is_word(a) or (b - a != 1 and not renamed):
                source.refuse(a, "a form of use")
            parts.append(("::".join(path), source.at(a), source.at(b - 1), (a, b)))
        if not parts:
            source.refuse(start, "an import of nothing")
        return parts

    def look_at_names(self):
        """What is for proofs alone has a name of its own in its crate: no file there calls another thing so."""
        self.laws, self.traits = set(), set()
        for source in self.sources.values():
            for item in source.items:
                if is_law(item):
                    self.laws.add((source.crate, item.name))
                if item.kind == "trait" and all(part.kind in ("ghost", "ghost use") for part in item.items):
                    self.traits.add((source.crate, item.name))
        for source in self.sources.values():
            for item in source.items:
                if item.kind == "fn" and (source.crate, item.name) in self.laws and not is_law(item):
                    source.refuse(item.start, f"{item.name} stands twice in {source.crate}, once for proofs alone")
            for name, home in source.scope.items():
                if home != (source.crate, name) and (source.crate, name) in self.laws | self.traits:
                    source.refuse(0, f"{name} stands for two things in {source.crate}, once for proofs alone")

    def is_for_proofs(self, source, name):
        return source.scope.get(name) in self.laws | self.traits | {BRAND}

    # Items

    def erase(self, source):
        for item in source.items:
            self.known_attributes(source, item)
            if item.kind == "inner attribute":
                if item.attributes[0][0] != "tactic":
                    source.refuse(item.start, "an attribute of a module")
                self.leave_out(source, item, "attribute of tactics", comments=False)
            elif item.kind == "ghost use":
                self.leave_out(source, item, "ghost use", comments=False)
            elif item.kind in ("use", "mod"):
                continue
            elif self.is_used(source, item):
                self.erase_item(source, item)
            elif item.kind == "impl" and item.trait == "Drop" and item.name in self.used[f"{source.crate}/{source.module}"]:
                source.refuse(item.start, "a drop by value")
            else:
                self.leave_out(source, item, "unused")

    def leave_out(self, source, item, kind, comments=True):
        self.counts[kind] += 1
        source.drop_lines(item.start, item.end, comments)

    def erase_item(self, source, item):
        self.attributes(source, item)
        if item.kind == "impl":
            self.erase_impl(source, item)
            return
        if item.kind == "fn" and item.body:
            self.inline(source, item)
        if item.generics:
            self.generics(source, *item.generics)
        if item.where:
            source.refuse(item.where[0], "a where")
        if item.clauses:
            for word, _, _ in item.clauses:
                self.counts[word] += 1
            self.between(source, item.clauses[0][1], item.clauses[-1][2])
        for name, a, b, ghost in item.fields:
            if ghost:
                self.counts["ghost field"] += 1
                source.drop_lines(a, b)
        if source.crate in ("poolsteps", "seatcalls"):
            self.leave_unused(source, item)

    def leave_unused(self, source, item):
        """Leaves out what a guest has that no step depends on. (The compiler says where anything else has it.)"""
        s = source
        for i in range(item.start, item.end):
            is_list = s.at(i) == "(" or s.at(i) == "{" and (item.kind == "struct" or s.at(i - 1)[:1].isupper())
            for a, b in s.split(i + 1, s.close[i]) if is_list and not s.gone[i] else ():
                if re.fullmatch(UNUSED, s.words_at(a, b - a)):
                    self.counts["what no step depends on"] += 1
                    (s.drop_lines if item.kind == "struct" else s.drop)(a, b + (s.at(b) == ","))
            begins = s.at(i - 1) in (";", "{", "}") and not s.gone[i]
            end = i + next((k for k in range(20) if s.at(i + k) == ";"), 0) + 1
            if begins and s.words_at(i, end - i) in STATEMENTS:
                self.counts["what no step depends on"] += 1
                s.drop_lines(i, end)

    def erase_impl(self, source, item):
        home = source.scope.get(item.name)
        if home != (source.crate, item.name) and home not in BY_HAND and home[0] != source.crate:
            source.refuse(item.start, f"an impl for {item.name}, which isn't of this crate")
        if item.generics:
            self.generics(source, *item.generics)
        for part in item.items:
            if part.kind in ("ghost", "ghost use"):
                self.leave_out(source, part, "ghost member", comments=part.kind == "ghost")
            elif self.is_used(source, part, item):
                self.erase_item(source, part)
            else:
                self.leave_out(source, part, "unused")

    def between(self, source, i, j):
        """Leaves the tokens from i to j out, with all that stands between what is before and behind them."""
        for k in range(i, j):
            source.gone[k] = True
        source.edits.append((source.tokens[i - 1].end, source.tokens[j].start, "" if source.at(j) == ";" else " "))

    def known_attributes(self, source, item):
        for name, a, _ in item.attributes:
            if name not in ATTRIBUTES:
                source.refuse(a, f"an attribute `{name}`")
        for part in item.items:
            self.known_attributes(source, part)

    def attributes(self, source, item):
        for name, a, b in item.attributes:
            if name == "tactic":
                self.counts["attribute of tactics"] += 1
                source.drop_lines(a, b, comments=False)
            elif name == "derive":
                self.derive(source, a, b)

    def derive(self, source, a, b):
        names = source.split(a + 4, b - 2)
        for x, y in names:
            if y - x != 1 or source.at(x) not in DERIVES:
                source.refuse(x, "a derive")
        kept = [source.at(x) for x, _ in names if source.at(x) != "Drop"]
        if len(kept) == len(names):
            return
        self.counts["derive of Drop"] += 1
        if kept:
            source.replace(a + 4, b - 2, ", ".join(kept))
        else:
            source.drop_lines(a, b, comments=False)

    def inline(self, source, item):
        """Rust needs a word for what is to be part of a caller in another crate. What the source keeps out of line is copied for each unit that
        is compiled: in the sight of its callers there, what they tell it stays in registers."""
        told = [(name, a, b) for name, a, b in item.attributes if name in ("inline", "cold")]
        if not told:
            self.counts["written: inline"] += 1
            source.insert(item.start, "#[inline]\n")
        elif [name for name, *_ in told] == ["cold", "inline"]:
            self.counts["written: inline"] += 1
            source.replace(told[1][1], told[1][2], "#[inline]")

    def generics(self, source, open_at, close_at):
        """Parameters of types go: those of proofs, and that of the objects."""
        for a, b in source.split(open_at + 1, close_at):
            bounds = set(source.words_at(a + 2, b - a - 2).split(" + ")) if source.at(a + 1) == ":" else set()
            if source.at(a) == OBJECT and bounds <= OF_OBJECTS:
                self.counts["type of the objects"] += 1
            elif len(bounds) == 1 and source.scope.get(*bounds) in self.traits:
                self.counts["parameter of proofs alone"] += 1
            else:
                source.refuse(a, "a parameter of types")
        source.drop(open_at, close_at + 1)

    # Imports

    def imports(self, source, modules):
        kept = set()
        for item in source.items:
            if item.kind != "use":
                kept |= source.words(item.start, item.end)
        told = {t.text for i in source.items if i.kind != "use" for t in source.tokens[i.start : i.end] if t.kind == "word"}
        for item in source.items:
            if item.kind == "mod" and item.name not in modules:
                self.leave_out(source, item, "module that isn't used")
            if item.kind == "use":
                self.import_of(source, item, lambda alias: alias in kept or alias not in told)

    def import_of(self, source, item, is_kept):
        names = []
        for path, name, alias, (a, b) in self.use_parts(source, item):
            home = source.scope[alias]
            is_used = name in self.used[f"{source.crate}/lib"] if item.public else is_kept(alias) and home != BRAND
            if is_used and home in BY_HAND:
                source.by_hand.add(name)
                is_used = name == alias or source.refuse(a, "an import by another name")
            elif is_used:
                self.check_import(source, a, path, name)
                names.append(source.text[source.tokens[a].start : source.tokens[b - 1].end])
        self.counts["import" if names else "import of proofs alone, or unused"] += 1
        if not names:
            source.drop_lines(item.start, item.end)
            return
        for k in range(item.start, item.end):
            source.done[k] = True
        text = names[0] if len(names) == 1 else "{" + ", ".join(names) + "}"
        i, j = item.body
        source.edits.append((source.tokens[i].start, source.tokens[j - 1].end, f"{self.target(source, path)}::{text}"))

    def check_import(self, source, i, path, name):
        if self.home(source, path) not in self.crates:
            source.refuse(i, f"an import of {path}::{name}")

    def target(self, source, path):
        head = path.split("::")[0]
        if head == "crate":
            return path.replace("crate", f"crate::erased::{source.crate}", 1)
        return f"crate::erased::{path}" if head in self.crates else path

    # Bodies, types and all else that stays

    def scan(self, source):
        for item in source.items:
            i = item.start if item.kind != "use" else item.end
            while i < item.end:
                i = i + 1 if source.gone[i] or source.done[i] else self.token(source, i)

    def token(self, source, i):
        token = source.tokens[i]
        before = source.tokens[i - 1] if i and not source.gone[i - 1] else None
        if token.kind == "sign":
            if token.text not in RUST_SIGNS:
                source.refuse(i, f"a sign `{token.text}`")
            if token.text == "#" and not any(a <= i < b for item in self.all_items(source.items) for _, a, b in item.attributes):
                source.refuse(i, "an attribute inside of a body")
            if token.text == "..":
                self.dots(source, i)
            return i + 1
        side_by_side = before and before.kind in ("word", "number", "string", "char") and token.kind != "life"
        if side_by_side and not {before.text, token.text} & KEYWORDS:
            source.refuse(i, f"`{before.text} {token.text}`")
        if token.kind != "word":
            return i + 1
        return self.word(source, i, token.text)

    def dots(self, source, i):
        """A range has an end, but where it is an index: Rust's ends otherwise. And a struct has no fields of another value, which Rust
        looks at where all are given."""
        before, behind = source.at(i - 1), source.at(i + 1)
        if self.ends_value(source, i - 1) and behind in (")", ",", ";", "{", "}", "]", "=>"):
            open_at = next((k for k, end in source.close.items() if end == i + 1), 0)
            if behind != "]" or not self.ends_value(source, open_at - 1):
                source.refuse(i, "a range without an end")
        if before in ("{", ",") and behind not in (")", "]", "}", ","):
            source.refuse(i, "the fields of another value")

    def ends_value(self, source, i):
        """Whether a value may end with the token i."""
        return source.tokens[i].kind == "number" or source.at(i) in (")", "]", "}") or source.is_word(i) and source.at(i) not in KEYWORDS

    def in_body(self, source, i):
        """Whether a token stands in the body of a function, or is part of the value of a constant."""
        for item in self.all_items(source.items):
            if item.kind in ("fn", "const") and item.body and item.body[0] <= i < item.body[1]:
                return True
        return False

    def all_items(self, items):
        for item in items:
            yield item
            yield from self.all_items(item.items)

    def word(self, source, i, text):
        behind = source.at(i + 1)
        member = source.at(i - 1) in (".", "::")
        if text in REFUSED_WORDS:
            source.refuse(i, f"`{text}` where no form with it is known")
        if text in CLONES and source.at(i - 1) != "fn":
            source.refuse(i, f"a call of {text}")
        if text in ITEM_WORDS and source.at(i - 1) != "*" and self.in_body(source, i):
            source.refuse(i, f"`{text}` inside of a body")
        if behind == "!" and source.at(i + 2) in ("(", "[", "{"):
            source.refuse(i, f"a macro {text}!")
        if text == "self" and not member and source.words_at(i + 1, 4) == ". table . shared":
            return self.step(source, i)
        if source.words_at(i + 1, 3) == f"< {OBJECT} >":
            return self.of_objects(source, i)
        if behind == "::" and source.at(i + 2) == "<":
            return self.type_arguments(source, i)
        if not member and behind == "::":
            return self.path(source, i, text)
        call = source.words_at(i + 1, 3) == "( ) ;" and source.at(i - 1) in (";", "{", "}")
        if call and source.scope.get(text) in self.laws:
            self.counts["call of a law"] += 1
            source.drop_lines(i, i + 4)
            return i + 4
        self.known(source, i, text, member)
        return i + 1

    def known(self, source, i, text, member):
        """A name is known: an import's, the file's, or Rust's own; and not one of proofs."""
        if member:
            return
        if text == OBJECT:
            source.refuse(i, "an object")
        if self.is_for_proofs(source, text):
            source.refuse(i, f"`{text}`, which is for proofs alone")
        home = source.scope.get(text)
        is_known = home and (home[0] in self.crates or home in BY_HAND) or text in TAKEN or text == "Self"
        if text[0].isupper() and not is_known and self.in_body(source, i):
            source.refuse(i, f"`{text}`, which no import names")

    def step(self, source, i):
        """A step at the table's word of a place, which is one on that word in the crate."""
        s = source
        found = re.match(STEP, s.words_at(i, 30))
        count = len(found.group().split()) if found else 0
        form = found and found.group("step")
        name = form and form.split()[-1]
        if form not in STEPS or s.scope.get(name) != (s.crate, name):
            s.refuse(i, "a form of step")
        self.counts["rewritten: step"] += 1
        s.replace(i + 1, i + count, f".{STEPS[form]}")
        s.gone[i + 1 : i + count] = [True] * (count - 1)
        return i + count

    def of_objects(self, source, i):
        """A type goes by the type of the objects: it hasn't that, and what is lent has the life of the loan."""
        text, home = source.at(i), source.scope.get(source.at(i))
        if not home or home[0] not in ("poolsteps", "seatcalls"):
            source.refuse(i, f"`{text}<{OBJECT}>`, where no form with it is known")
        self.counts["type of the objects"] += 1
        if home in LENT:
            source.replace(i + 1, i + 4, "<'_>")
        else:
            source.drop(i + 1, i + 4)
        return i + 4

    def path(self, source, i, text):
        if text not in PRELUDE and source.scope.get(text, ("",))[0] not in self.crates:
            source.refuse(i, f"a path that begins with {text}")
        if text in source.scope:
            self.known(source, i, text, False)
        return i + 1

    def type_arguments(self, source, i):
        """`.enter_as::<Brand>(` is `.enter_as(`: what is told so is for proofs alone, a parameter of proofs or Brand."""
        close = source.angle(i + 2)
        name = source.words_at(i + 3, close - i - 3)
        if source.scope.get(name) != BRAND and name not in self.told_to(source, i):
            source.refuse(i + 3, f"a type argument `{name}`")
        if source.at(close + 1) != "(":
            source.refuse(i, "a form of type arguments")
        self.counts["type argument of a call"] += 1
        source.drop(i + 1, close + 1)
        return close + 1

    def told_to(self, source, i):
        """The parameters of proofs of the function around."""
        for item in self.all_items(source.items):
            if item.kind == "fn" and item.start <= i < item.end and item.generics:
                return {source.at(a) for a, _ in source.split(item.generics[0] + 1, item.generics[1])} - {OBJECT}
        return set()


def is_law(item):
    """Whether an item is a function that takes and answers nothing, and does nothing."""
    if item.kind != "fn" or not item.body or not item.clauses:
        return False
    return item.parameters[0] == item.parameters[1] and not item.answer and item.body[0] == item.body[1]


def finish(source):
    """The text that is left, with its head and its imports of what is by hand."""
    out, at, reach = [], 0, -1
    for start, end, text in sorted(source.edits, key=lambda e: (e[0], -e[1])):
        # An edit inside of a longer one is part of it.
        if end <= reach and start < reach:
            continue
        if start < reach:
            source.refuse_at(start, "two changes of one text")
        out += [source.text[at:start], text]
        at = reach = end
    out.append(source.text[at:])
    text = "".join(out)
    about = re.match(r"\s*((?://!.*\n)+|(?:// .*\n)+(?=\n))?", text)
    head = f"// Made from {source.name} by tools/erase/erase.py: change that file, not this one.\n\n"
    if about.group(1):
        head += about.group(1) + "\n"
    if source.by_hand:
        head += "use crate::word::{" + ", ".join(sorted(source.by_hand)) + "};\n\n"
    return formatted(head + text[about.end() :].lstrip())


def root_module(crates):
    lines = [
        "// Made by tools/erase/erase.py.",
        "",
        "//! Made from proved sources: what is left of them without their contracts and proofs, as far as the crate uses it. Keys, shapes and",
        "//! lifecycle words (`keybits`), the steps on a word (`poolsteps`), and what a get, a release and a clear do with what their steps find",
        "//! (`seatcalls`). What the contracts require of a caller nothing here tests, so it is private, and the modules above take it over.",
        "",
        "// What is told to steps for proofs alone, nothing here looks at.",
        "#![allow(unused_variables)]",
        "",
    ]
    return formatted("\n".join(lines + [f"pub(crate) mod {crate};" for crate in sorted(crates)]) + "\n")


def formatted(text):
    made = subprocess.run(["rustfmt", "--edition", "2021", "--emit", "stdout"], input=text, capture_output=True, text=True)
    if made.returncode:
        raise Refused(f"rustfmt: {made.stderr.strip()}\n{text}")
    return made.stdout


def is_same(text, wanted):
    """Whether a file is as it should be. Another rustfmt may have set its lines."""
    try:
        return text == wanted or formatted(text) == wanted
    except Refused:
        return False


def stale(texts, out):
    """The files that aren't what they should be, each with why."""
    found = []
    there = {os.path.relpath(os.path.join(d, f), out) for d, _, fs in os.walk(out) for f in fs}
    for name in sorted(there | set(texts)):
        if name not in texts:
            found.append(f"{name}: made from no source")
        elif name not in there:
            found.append(f"{name}: isn't there")
        else:
            with open(os.path.join(out, name), encoding="utf-8") as file:
                if not is_same(file.read(), texts[name]):
                    found.append(f"{name}: isn't what the sources give")
    return found


def write(texts, out):
    for name in stale(texts, out):
        path = os.path.join(out, name.split(":")[0])
        if name.split(":")[0] not in texts:
            os.remove(path)
    for name, text in texts.items():
        path = os.path.join(out, name)
        os.makedirs(os.path.dirname(path), exist_ok=True)
        with open(path, "w", encoding="utf-8") as file:
            file.write(text)


def main():
    parser = argparse.ArgumentParser(description=__doc__.split("\n\n")[0])
    parser.add_argument("--check", action="store_true", help="write nothing, and name each file that differs")
    parser.add_argument("--crates", default=os.path.join(ROOT, "crates"))
    parser.add_argument("--out", default=os.path.join(ROOT, "bindings", "rust", "src", "erased"))
    words = parser.parse_args()
    try:
        eraser = Eraser(words.crates)
        texts = eraser.texts()
    except Refused as fault:
        sys.exit(f"refused: {fault}")
    if words.check:
        faults = stale(texts, words.out)
        for fault in faults:
            print(fault)
        sys.exit(1 if faults else 0)
    write(texts, words.out)
    for name, count in sorted(eraser.counts.items(), key=lambda c: (-c[1], c[0])):
        print(f"{count:5} {name}")


if __name__ == "__main__":
    main()
