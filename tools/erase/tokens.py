#!/usr/bin/env python3
"""Looks at the erased sources by another method than the one that made them: goes along each file and its source, token by token.

usage: tokens.py [CRATES [OUT]]

Each token of the output must stand in the source, in the same order, but for the rewrites that are listed here; and what the
source has between them must be of the kinds that are listed here. It prints both lists with how often each came.
"""
import collections
import os
import re
import sys

ROOT = os.path.dirname(os.path.dirname(os.path.dirname(os.path.abspath(__file__))))
CRATES = {"keybits", "poolsteps", "seatcalls"}
ITEMS = {"const", "enum", "fn", "struct", "trait", "type"}
# What is by hand, and where the sources have it.
BY_HAND = {"Claimed": {"crate::claimed"}, "Grid": {"poolsteps", "crate::grid"}, "keep": {"crate::claimed"}}
OPEN, CLOSE = dict(zip("([{", ")]}")), set(")]}")
TOKEN = re.compile(r"//[^\n]*|\"(?:[^\"\\\n]|\\.)*\"|'(?:[^'\\\n]|\\[^\n]+?)'|'[a-z_]+\b|\w+|::|->|=>|\.\.|\S")
# What means other than in Rust, or at some builds alone: values lie otherwise in memory, and copies may be refused.
OTHERWISE = {"align_of", "align_of_val", "cfg", "cfg_attr", "cloned", "size_of", "size_of_val"}
# Where the type of the objects is named, and a step at the table's word of a place.
OBJECTS = re.compile(r"< T(?: : (?:Clear|Drop)(?: \+ Drop)?)? >")
STEP = re.compile(r"table \. shared \. (fetch_add|fetch_sub|fetch_or|compare_exchange) :: < (\w+) < J > > \( hand , LIVES_START \+ spot \. start as usize ,")
STEPS = {
    ("fetch_add", "Enter"): "enters (",
    ("fetch_sub", "Leave"): "leaves (",
    ("fetch_or", "Mark"): "marks (",
    ("compare_exchange", "Claim"): "claims (",
    ("compare_exchange", "Sweep"): "sweeps (",
    ("compare_exchange", "Strike"): "strikes (",
}
# What a guest has that no step depends on: how a part of a list with it begins, and statements about nothing else.
UNUSED = re.compile(r"(?:pub \( crate \) |& mut |mut )?(?:hand|number|shape|share|directory) [:,]")
STATEMENTS = [
    text.split()
    for text in (
        "let mut hand = hand ;",
        "let mut hand = kept . into_hand ( ) ;",
        "let share = grid . out ( & mut hand , spot , number , number ) ;",
        "grid . settle ( & mut hand , spot , number , number , share ) ;",
    )
]


def tokens_of(text):
    return [token for token in TOKEN.findall(text) if not token.startswith("//")]


def looked_at(name, text):
    """Refuses a source of which readers may see different braces, or with forms that mean other than in Rust."""
    term, depth, tokens = False, 0, []
    for found in TOKEN.finditer(text):
        token, at = found.group(), found.start()
        comment = token.startswith("//")
        hides = len(token) == 1 and text[at : at + 2] in ("--", "{-", "/*") or token in ("'", '"')
        hides |= token[0] == '"' and text[at - 1 : at] in ("r", "c", "#") or term and (comment or token[0] in "\"'")
        if hides:
            raise SystemExit(f"FAIL {name}: `{text[at : at + 8]}` may hide a brace")
        if token in ("requires", "ensures", "ghost", "by"):
            term = True
        elif term:
            depth += (token == "{") - (token == "}")
            term = depth > 0 or token not in ("}", ";")
        tokens += [] if comment else [token]
    depth = 0
    for before, token, behind in zip(["", *tokens], tokens, [*tokens[1:], ""]):
        depth += (token == "{") - (token == "}")
        inner = token == "use" and before != "ghost" and (depth or before == "]")
        value = re.fullmatch(r"\w+|[)\]]", before)
        endless = token == ".." and (value and behind in ") , ; { =>".split() or before in ("{", ",") and re.match(r"\w", behind))
        path = token == "core" and behind == "::" and before != "use" or token == "clone" and before != "fn"
        if inner or endless or path or token in OTHERWISE:
            raise SystemExit(f"FAIL {name}: `{before} {token} {behind}` is no form of the sources")


def imports_of(tokens, crate):
    """The imports as {name or `name as alias`: path}, the paths as the sources have them; and the tokens without them."""
    found, rest, i = {}, [], 0
    while i < len(tokens):
        start = i
        if tokens[i] == "pub" and tokens[i + 1 : i + 2] == ["use"]:
            i += 1
        if tokens[i] != "use" or start and tokens[start - 1] not in (";", "}", "]"):
            rest.append(tokens[start])
            i = start + 1
            continue
        end = tokens.index(";", i)
        text = " ".join(tokens[i + 1 : end])
        parts = re.fullmatch(r"(?:(\w+(?: :: \w+)*) :: )?(?:{ (.*?),? }|(\w+(?: as \w+)?))", text)
        if not parts:
            raise SystemExit(f"FAIL {crate}: an import `{text}`")
        for name in (parts.group(2) or parts.group(3)).split(","):
            found[name.strip()] = source_path(parts.group(1) or "", crate)
        i = end + 1
    return found, rest


def source_path(path, crate):
    path = path.replace(" ", "")
    if path.startswith("crate::erased::"):
        path = path[len("crate::erased::") :]
        own = path == crate or path.startswith(crate + "::")
        return "crate" + path[len(crate) :] if own else path
    return path


class Walk:
    """One file beside its source."""

    def __init__(self, name, crate, source, output, gone):
        self.name, self.crate = name, crate
        looked_at(name, source)
        self.told, self.s = imports_of(tokens_of(source), crate)
        self.gone = {n: kind for (c, n), kind in gone.items() if c == crate}
        for n, path in self.told.items():
            home = path.split("::")[0]
            if (home, n) in gone and home != "crate":
                self.gone[n] = gone[home, n]
        for n in self.told:
            if n.split(" as ")[-1] in self.gone and " as " in n:
                raise SystemExit(f"FAIL {name}: an import {n}, which stands for what proofs alone are about")
        self.made, self.o = imports_of(tokens_of(output), crate)
        self.items = {" ".join(pair) for pair in zip(self.o, self.o[1:]) if pair[0] in ITEMS}
        self.items |= {bare(" ".join(self.o[k : self.o.index("{", k)])) for k, word in enumerate(self.o) if word == "impl"}
        bounds = zip(self.s, self.s[1:], self.s[2:])
        self.parameters = {name for name, colon, bound in bounds if colon == ":" and self.gone.get(bound) == "trait"}
        self.left, self.rewritten = collections.Counter(), collections.Counter()

    def fail(self, i, j, why="stands there without a rule"):
        near = " ".join(self.s[max(0, i - 6) : i + 12])
        raise SystemExit(f"FAIL {self.name}: `{' '.join(self.o[j:j + 8])}` {why}; the source has `{near}`")

    def close(self, i):
        """Behind the bracket that closes the one at i."""
        depth = 0
        while True:
            depth += (self.s[i] in OPEN) - (self.s[i] in CLOSE)
            i += 1
            if depth == 0:
                return i

    def angles(self, i):
        depth = 0
        while True:
            depth += (self.s[i] == "<") - (self.s[i] == ">")
            i += 1
            if depth == 0:
                return i

    def starts(self, i, text):
        words = text.split()
        return self.s[i : i + len(words)] == words

    def imports(self):
        for name, path in self.made.items():
            if path == "crate::word":
                if self.told.get(name) not in BY_HAND.get(name, ()):
                    raise SystemExit(f"FAIL {self.name}: an import of {name}, which isn't by hand")
            elif self.told.get(name) != path:
                raise SystemExit(f"FAIL {self.name}: an import of {path}::{name}")
        words = set(self.o)
        for name in set(self.told) - set(self.made):
            self.left["import"] += 1
            if name.split(" as ")[-1] in words:
                raise SystemExit(f"FAIL {self.name}: the import of {name} is left out")

    def run(self):
        self.imports()
        i = j = 0
        while i < len(self.s) or j < len(self.o):
            step = self.left_out(i) if i < len(self.s) else None
            if step:
                i, kind = step
                self.left[kind] += 1
            elif i < len(self.s) and j < len(self.o) and self.s[i] == self.o[j]:
                i, j = i + 1, j + 1
            else:
                i, j = self.rewrite(i, j)

    # What may be left out

    def left_out(self, i):
        """(behind it, its kind) of something that may be left out, which begins at i."""
        s, word = self.s, self.s[i]
        k = i
        while s[k : k + 1] == ["#"]:
            k = self.close(k + 1 + (s[k + 1] == "!"))
        if word == "#" and s[i + 1 + (s[i + 1] == "!") + 1] == "tactic":
            return self.close(i + 1 + (s[i + 1] == "!")), "attribute of tactics"
        if self.starts(i, "# [ derive ( Drop ) ]"):
            return self.close(i + 1), "derive of Drop"
        k += s[k : k + 1] == ["pub"]
        if s[k - 1] == "pub" and s[k] == "(":
            k = self.close(k)
        if s[k] == "ghost":
            return self.ghost(k)
        if word in ("requires", "ensures"):
            return self.close(s.index("{", i)), word
        if s[k] in ("struct", "enum", "trait", "fn", "mod") and s[k + 1] in self.gone:
            return self.item(k), self.gone[s[k + 1]]
        if s[k] in ITEMS and self.is_unused(k):
            return self.item(k), "item that the crate doesn't use"
        if s[k] == "impl":
            return self.unused_impl(k)
        if self.starts(i + 1, "( ) ;") and self.gone.get(word) == "law" and s[i - 1] in (";", "{", "}"):
            return i + 4, "call of a law"
        return self.types(i)

    def is_unused(self, k):
        """Whether the file has no item of this kind and name. (Nothing that is left can mean it then: the compiler would look for it in vain.)"""
        return " ".join(self.s[k : k + 2]) not in self.items

    def unused_impl(self, k):
        """An impl of which the file has no head. (But a drop, which nobody calls by its name.)"""
        head = " ".join(self.s[k : self.s.index("{", k)])
        if bare(head) in self.items or " Drop for " in head:
            return None
        return self.close(self.s.index("{", k)), "impl that the crate doesn't use"

    def ghost(self, k):
        s = self.s
        if s[k + 1] == "use":
            return s.index(";", k) + 1, "ghost use"
        end = self.close(s.index("{", k))
        if s[end] == "by":
            end = self.close(end + 1)
        kind = "ghost member" if s[end] == ";" else "ghost field"
        return end + (s[end] in (";", ",")), kind

    def item(self, k):
        while self.s[k] not in ("{", ";"):
            k = self.angles(k) if self.s[k] == "<" else self.close(k) if self.s[k] == "(" else k + 1
        if self.s[k] == ";":
            return k + 1
        end = self.close(k)
        while self.s[end - 1 : end] == ["}"] and self.s[end : end + 1] and self.s[end] in ("ensures", "requires", "{"):
            end = self.close(self.s.index("{", end))
        return end

    def types(self, i):
        """Parameters, arguments and bounds of types that proofs alone need."""
        s = self.s
        if self.starts(i, ":: <") and s[i - 2] in (".", "self", "::"):
            end = self.angles(i + 1)
            if s[end] == "(" and any(w == "Brand" or w in self.gone or w in self.parameters for w in s[i + 2 : end]):
                return end, "type argument of a call"
        if s[i] == "<" and s[i + 2] == ":" and self.gone.get(s[i + 3]) == "trait" and s[i + 4] == ">":
            return i + 5, "parameter of proofs"
        unused = self.unused(i) if self.crate != "keybits" else None
        if unused:
            return unused, "what no step depends on"
        objects = OBJECTS.match(" ".join(s[i : i + 7]))
        if objects and s[i - 1] != "Grid" and self.crate != "keybits":
            return i + len(objects.group().split()), "type of the objects"
        return None

    def unused(self, i):
        """Behind a part of a list, or a statement, with what no step depends on."""
        s = self.s
        if s[i - 1] in ("(", ",") or s[i - 1] == "{" and (s[i - 2] == ">" or s[i - 2][0].isupper()):
            if UNUSED.match(" ".join(s[i : i + 7])):
                while s[i] != ",":
                    i = self.close(i) if s[i] in OPEN else self.angles(i) if s[i] == "<" else i + 1
                return i + 1
        if s[i - 1] in (";", "{", "}"):
            return next((i + len(words) for words in STATEMENTS if s[i : i + len(words)] == words), None)
        return None

    # What may be written otherwise

    def rewrite(self, i, j):
        for rule in (self.comma, self.path, self.derive, self.inline, self.by_hand):
            step = rule(i, j)
            if step:
                kind, i, j = step
                if kind:
                    self.rewritten[kind] += 1
                return i, j
        self.fail(i, j)

    def comma(self, i, j):
        """A comma in front of a closing bracket, which rustfmt sets and takes."""
        s, o = self.s[i : i + 2], self.o[j : j + 2]
        end = i + 1
        while s[:1] == [","] and self.crate != "keybits" and self.unused(end):
            end = self.unused(end)
        if s[:1] == [","] and self.s[end : end + 1] == o[:1] and o[0] in (CLOSE | {">"}):
            return "", i + 1, j
        if o[:1] == [","] and o[1:] and o[1] in CLOSE and s[:1] == o[1:]:
            return "", i, j + 1
        return None

    def path(self, i, j):
        """A path that begins with the folder of what is made."""
        here = self.o[j : j + 4] == ["crate", "::", "erased", "::"]
        if here and self.s[i : i + 2] == ["crate", "::"] and self.o[j + 4 : j + 6] == [self.crate, "::"]:
            return "path", i + 2, j + 6
        return None

    def inline(self, i, j):
        """A word on which calls are to be part of their callers."""
        word = "# [ inline ( always ) ]".split()
        if self.o[j : j + 7] == word:
            return "inline", i, j + 7
        if self.o[j : j + 4] == word[3:] and self.s[i - 1 : i + 1] == ["inline", "]"]:
            return "inline", i + 1, j + 4
        if self.s[i - 1 : i + 3] == "inline ( never )".split() and self.o[j] == "]":
            return "inline", i + 3, j
        if self.o[j : j + 4] == "# [ inline ]".split():
            return "inline", i, j + 4
        return None

    def derive(self, i, j):
        """`, Drop` at the end of a derive."""
        if self.starts(i, ", Drop ) ]") and self.o[j : j + 2] == [")", "]"]:
            return "derive of Drop", i + 2, j
        return None

    def by_hand(self, i, j):
        """What stands for the table, its seats and the guests' numbers."""
        s, o = self.s, self.o
        step = STEP.match(" ".join(s[i : i + 26]))
        if step and s[i - 2 : i] == ["self", "."]:
            want = STEPS.get(step.groups(), "none").split()
            if o[j : j + len(want)] == want:
                return "step", i + len(step.group().split()), j + len(want)
        if s[i - 2 : i + 2] == ["Grid", "<", "T", ">"] and o[j] == "'_":
            return "life of a loan", i + 1, j + 1
        return None


def bare(head):
    """The head of an impl without the type of the objects."""
    return re.sub(r" <(?: T(?: : [\w +]+)?| '_) >", "", head)


def gone_names(sources, kept):
    """The names that proofs alone are about, with their kinds: each is told from its own text."""
    found = {}
    for (crate, module), text in sources.items():
        joined = " ".join(tokens_of(text))
        if (crate, module) not in kept:
            found[crate, module] = "module that isn't used"
        for m in re.finditer(r"fn (\w+) (?:< \w+ : \w+ > )?\( \) (?:ensures \w* ?{[^{}]*} )+{ }", joined):
            found[crate, m.group(1)] = "law"
        for m in re.finditer(r"trait (\w+) { ((?:ghost [^{}]*(?:{[^{}]*})?[^{};]*; ?)+)}", joined):
            found[crate, m.group(1)] = "trait"
    return found


def main():
    crates = sys.argv[1] if len(sys.argv) > 1 else os.path.join(ROOT, "crates")
    out = sys.argv[2] if len(sys.argv) > 2 else os.path.join(ROOT, "bindings", "rust", "src", "erased")
    sources, outputs = {}, {}
    for crate in sorted(CRATES & set(os.listdir(out))):
        for name in sorted(os.listdir(os.path.join(crates, crate, "src"))):
            with open(os.path.join(crates, crate, "src", name), encoding="utf-8") as file:
                sources[crate, name[:-3]] = file.read()
        for name in sorted(os.listdir(os.path.join(out, crate))):
            with open(os.path.join(out, crate, name), encoding="utf-8") as file:
                outputs[crate, "lib" if name == "mod.rs" else name[:-3]] = file.read()
    left, rewritten, total = compare(sources, outputs)
    print(f"left out: {told(left)}")
    print(f"written otherwise: {told(rewritten)}")
    print(f"{total} tokens in {len(outputs)} files stand in their sources, in order, but for what is left out and written otherwise")


def compare(sources, outputs):
    """Goes along each file and its source. Answers what is left out, what is written otherwise, and how many tokens there are."""
    left, rewritten, total = collections.Counter(), collections.Counter(), 0
    for key in sorted(set(outputs) - set(sources)):
        raise SystemExit(f"FAIL {'/'.join(key)}: made from no source")
    gone = gone_names(sources, outputs)
    for (crate, module), text in sorted(outputs.items()):
        walk = Walk(f"{crate}/{module}", crate, sources[crate, module], text, gone)
        walk.run()
        left += walk.left
        rewritten += walk.rewritten
        total += len(walk.o)
    return left, rewritten, total


def told(counts):
    return ", ".join(f"{count} {name}" for name, count in counts.most_common())


if __name__ == "__main__":
    main()
