"""A source of Rattle as its tokens and its items. Each form of item is known here, and any other refused with its file and line."""
import bisect
import collections
import re

SIGNS = ["..=", "->", "=>", "::", "..", "&&", "||", "==", "!=", "<=", ">=", "+=", "-=", "*=", "/=", "%=", "|=", "&=", "^="]
RUST_SIGNS = set(SIGNS) | set("()[]{}<>,;:.=+-*/%&|^!?#@$_'")

LEXER = re.compile(
    r"""(?P<space>\s+)
    |(?P<inner>//![^\n]*)
    |(?P<doc>///(?!/)[^\n]*)
    |(?P<comment>//[^\n]*)
    |(?P<block>/\*)
    |(?P<raw>(?:b|c)?r\#*"|c")
    |(?P<string>b?"(?:[^"\\]|\\.)*")
    |(?P<char>b?'(?:[^'\\\n]|\\[^\n]+?)')
    |(?P<life>'[A-Za-z_]\w*)
    |(?P<number>[0-9][0-9A-Za-z_]*)
    |(?P<word>[A-Za-z_]\w*)
    |(?P<sign>"""
    + "|".join(re.escape(s) for s in SIGNS)
    + r"""|.)""",
    re.X | re.S,
)

Token = collections.namedtuple("Token", "kind text start end")


class Refused(Exception):
    """A form that isn't known, with where it stands."""


class Source:
    """A file of a crate: its tokens, which of them go, and what is written in place of others."""

    def __init__(self, crate, module, path, name):
        with open(path, encoding="utf-8", newline="") as file:
            self.text = file.read()
        self.crate, self.module, self.name = crate, module, name
        self.ends = [m.start() for m in re.finditer("\n", self.text)]
        self.tokens, self.comments = [], []
        for m in LEXER.finditer(self.text):
            if m.lastgroup == "space":
                continue
            token = Token(m.lastgroup, m.group(), m.start(), m.end())
            self.lexed(token)
            (self.comments if token.kind in ("inner", "doc", "comment") else self.tokens).append(token)
        self.close = {}
        self.match_brackets()
        self.gone = [False] * len(self.tokens)
        self.done = [False] * len(self.tokens)
        self.edits = []
        self.items = []
        self.scope = {}
        self.by_hand = set()

    def lexed(self, token):
        """Refuses what could hide a brace: what begins a comment in a clause, and texts that other readers may end elsewhere."""
        if token.kind == "block":
            self.refuse_at(token.start, "a comment /* */")
        if token.kind == "raw":
            self.refuse_at(token.start, "a raw string")
        if token.kind == "string" and "\n" in token.text:
            self.refuse_at(token.start, "a string of several lines")
        if token.kind == "sign" and self.text[token.start : token.start + 2] in ("--", "{-"):
            self.refuse_at(token.start, f"`{self.text[token.start : token.start + 2]}`, which begins a comment in a clause")
        if token.kind == "sign" and (token.text in "'\"" or not token.text.isprintable()):
            self.refuse_at(token.start, f"a sign {token.text!r}")

    def term(self, open_at):
        """Where the brace of a term for proofs ends."""
        self.plain(open_at, self.close[open_at])
        return self.close[open_at]

    def plain(self, i, j):
        """Refuses what readers of proofs and of code end elsewhere, in what proofs alone have, from the token i to the token j: `//` may be a
        name there, and a quote a part of one."""
        for k in range(i, j):
            if self.tokens[k].kind in ("string", "char", "life"):
                self.refuse(k, f"`{self.at(k)}` in a term for proofs")
        for comment in self.comments:
            if self.tokens[i].start < comment.start < self.tokens[j].start:
                self.refuse_at(comment.start, "a comment in a term for proofs")

    def match_brackets(self):
        pairs, open_ones = {")": "(", "]": "[", "}": "{"}, []
        for i, token in enumerate(self.tokens):
            if token.kind != "sign":
                continue
            if token.text in "([{":
                open_ones.append(i)
            elif token.text in pairs:
                if not open_ones or self.tokens[open_ones[-1]].text != pairs[token.text]:
                    self.refuse(i, f"a bracket {token.text} without its other")
                self.close[open_ones.pop()] = i
        if open_ones:
            self.refuse(open_ones[-1], f"a bracket {self.tokens[open_ones[-1]].text} without its other")

    def refuse_at(self, offset, what):
        line = bisect.bisect_left(self.ends, offset) + 1
        raise Refused(f"{self.name}:{line}: {what}")

    def refuse(self, i, what):
        self.refuse_at(self.tokens[min(i, len(self.tokens) - 1)].start if self.tokens else 0, what)

    def at(self, i):
        return self.tokens[i].text if i < len(self.tokens) else ""

    def is_word(self, i):
        return i < len(self.tokens) and self.tokens[i].kind == "word"

    def words_at(self, i, count):
        """So many tokens from i on, with a space between any two."""
        return " ".join(self.at(k) for k in range(i, i + count))

    def want(self, i, text):
        if self.at(i) != text:
            self.refuse(i, f"`{text}` is wanted, not `{self.at(i)}`")
        return i + 1

    def words(self, i, j):
        """The words that stay, of the tokens from i to j."""
        return {t.text for k, t in enumerate(self.tokens[i:j], i) if t.kind == "word" and not self.gone[k]}

    def angle(self, i):
        """Where the `<` at i is closed."""
        depth = 0
        while i < len(self.tokens):
            text = self.at(i)
            if text in ("(", "[", "{"):
                i = self.close[i]
            depth += {"<": 1, ">": -1}.get(text, 0)
            if depth == 0:
                return i
            i += 1
        self.refuse(i, "`<` without `>`")

    def split(self, i, j):
        """The ranges between commas, of the tokens from i to j."""
        parts, start, k = [], i, i
        while k < j:
            text = self.at(k)
            if text in ("(", "[", "{"):
                k = self.close[k]
            elif text == "<":
                k = self.angle(k)
            elif text == ",":
                parts.append((start, k))
                start = k + 1
            k += 1
        if start < j:
            parts.append((start, j))
        return parts

    # Edits

    def replace(self, i, j, text):
        """Writes a text for the tokens from i to j."""
        self.edits.append((self.tokens[i].start, self.tokens[j - 1].end, text))
        for k in range(i, j):
            self.done[k] = True

    def insert(self, i, text):
        self.edits.append((self.tokens[i].start, self.tokens[i].start, text))

    def drop(self, i, j):
        """Leaves the tokens from i to j out."""
        for k in range(i, j):
            self.gone[k] = True
        self.edits.append((self.tokens[i].start, self.tokens[j - 1].end, ""))

    def drop_lines(self, i, j, comments=True, text=""):
        """Leaves the tokens from i to j out, with their lines and the comments above them, and writes a text for them."""
        for k in range(i, j):
            self.gone[k] = True
        start, end = self.tokens[i].start, self.tokens[j - 1].end
        start = self.text.rfind("\n", 0, start) + 1
        if self.text[start : self.tokens[i].start].strip():
            start = self.tokens[i].start
        elif comments:
            start = self.above(start)
        rest = re.compile(r"[ \t]*\n?").match(self.text, end)
        self.edits.append((start, rest.end(), text))

    def above(self, start):
        """Where the comments begin that stand right above a line."""
        while start > 0:
            before = self.text.rfind("\n", 0, start - 1) + 1
            line = self.text[before : start - 1].strip()
            if not line.startswith("//") or line.startswith("//!"):
                break
            start = before
        return start


class Item:
    def __init__(self, kind, start):
        self.kind, self.start, self.end = kind, start, start
        self.name = self.trait = ""
        self.public = False
        self.around = None
        self.attributes, self.fields, self.items = [], [], []
        self.generics = self.parameters = self.answer = self.where = self.body = None
        self.clauses = []


class Parser:
    """The items of a file, each with its parts."""

    def __init__(self, source):
        self.s = source

    def items(self, i, j, place):
        found = []
        while i < j:
            item = self.item(i, place)
            found.append(item)
            i = item.end
        return found

    def item(self, i, place):
        s = self.s
        item = Item("", i)
        while s.at(i) == "#":
            inner = s.at(i + 1) == "!"
            open_at = i + 1 + inner
            s.want(open_at, "[")
            item.attributes.append((s.at(open_at + 1), i, s.close[open_at] + 1))
            s.plain(open_at, s.close[open_at])
            i = s.close[open_at] + 1
            if inner:
                item.kind, item.end = "inner attribute", i
                return item
        if s.at(i) == "pub":
            item.public = True
            i += 1
            if s.at(i) == "(":
                if s.at(i + 1) not in ("crate", "super"):
                    s.refuse(i, "a form of pub")
                i = s.close[i] + 1
        kind = s.at(i)
        if kind == "ghost":
            return self.ghost(item, i, place)
        const_fn = kind == "const" and s.at(i + 1) in ("fn", "unsafe")
        if kind in ("use", "mod", "const", "type", "struct", "enum", "trait") and not const_fn:
            if place != "file":
                s.refuse(i, f"`{kind}` inside of an impl or a trait")
            return getattr(self, kind + "_item")(item, i)
        if kind == "unsafe" and s.at(i + 1) == "impl" or kind == "impl":
            if place != "file":
                s.refuse(i, "an impl inside of another item")
            return self.impl_item(item, i + (kind == "unsafe"))
        while s.at(i) in ("const", "unsafe"):
            i += 1
        if s.at(i) == "fn":
            return self.fn_item(item, i)
        s.refuse(i, f"an item that begins with `{kind}`")

    def until(self, i, ends):
        """The first of these signs behind i, outside of brackets."""
        s = self.s
        while i < len(s.tokens) and s.at(i) not in ends:
            i = s.close[i] + 1 if s.at(i) in ("(", "[", "{") else i + 1
        if i >= len(s.tokens):
            s.refuse(i, f"`{ends[0]}` is wanted, not the end")
        return i

    def ghost(self, item, i, place):
        s = self.s
        item.kind, item.name = "ghost", s.at(i + 1)
        if s.at(i + 1) == "use":
            item.kind = "ghost use"
            item.end = self.until(i, (";",)) + 1
            s.plain(i, item.end - 1)
            return item
        if not s.is_word(i + 1) or s.at(i + 2) not in (":", "=") or s.at(i + 3) != "{":
            s.refuse(i, "a form of ghost")
        if place == "file":
            s.refuse(i, "a ghost member outside of an impl and a trait")
        i = s.term(i + 3) + 1
        item.end = s.want(i, ";")
        return item

    def use_item(self, item, i):
        item.kind, item.body = "use", (i + 1, self.until(i, (";",)))
        item.end = item.body[1] + 1
        return item

    def mod_item(self, item, i):
        item.kind, item.name = "mod", self.s.at(i + 1)
        item.end = self.s.want(i + 2, ";")
        return item

    def const_item(self, item, i):
        item.kind, item.name = "const", self.s.at(i + 1)
        item.end = self.until(i, (";",)) + 1
        item.body = (i + 2, item.end)
        return item

    def type_item(self, item, i):
        item.kind, item.name = "type", self.s.at(i + 1)
        item.end = self.until(i, (";",)) + 1
        return item

    def head(self, item, i):
        """A name and its parameters of types. Answers where they end."""
        s = self.s
        if not s.is_word(i):
            s.refuse(i, "a name is wanted")
        item.name = s.at(i)
        i += 1
        if s.at(i) == "<":
            item.generics = (i, s.angle(i))
            i = item.generics[1] + 1
        return i

    def struct_item(self, item, i):
        s = self.s
        item.kind = "struct"
        i = self.head(item, i + 1)
        if s.at(i) == ";":
            item.end = i + 1
        elif s.at(i) == "(":
            item.fields = [("", a, b, False) for a, b in s.split(i + 1, s.close[i])]
            item.end = s.want(s.close[i] + 1, ";")
        elif s.at(i) == "{":
            item.fields = self.fields(i)
            item.end = s.close[i] + 1
        else:
            s.refuse(i, "a form of struct")
        return item

    def fields(self, i):
        """The fields between braces: name, from where to where, whether it is ghost."""
        s, found = self.s, []
        end = s.close[i]
        i += 1
        while i < end:
            start = i
            if s.at(i) == "#":
                s.refuse(i, "an attribute of a field")
            if s.at(i) == "pub":
                i = s.close[i + 1] + 1 if s.at(i + 1) == "(" else i + 1
            ghost = s.at(i) == "ghost"
            i += ghost
            if not s.is_word(i) or s.at(i + 1) != ":":
                s.refuse(i, "a form of field")
            name = s.at(i)
            if ghost:
                i = s.term(s.want(i + 2, "{") - 1) + 1
                if s.at(i) == "by":
                    i = s.term(s.want(i + 1, "{") - 1) + 1
            else:
                i = self.type_end(i + 2, (",", "}"))
            if i < end:
                i = s.want(i, ",")
            found.append((name, start, i, ghost))
        return found

    def type_end(self, i, ends):
        s = self.s
        while s.at(i) not in ends:
            if i >= len(s.tokens):
                s.refuse(i, "a type without an end")
            if s.at(i) == "<":
                i = s.angle(i)
            elif s.at(i) in ("(", "["):
                i = s.close[i]
            i += 1
        return i

    def enum_item(self, item, i):
        s = self.s
        item.kind = "enum"
        i = s.want(self.head(item, i + 1), "{") - 1
        for a, b in s.split(i + 1, s.close[i]):
            if not s.is_word(a) or s.at(a + 1) not in ("", "(", "{") and a + 1 != b:
                s.refuse(a, "a form of variant")
            if s.at(a + 1) == "(" and a + 1 < b:
                item.fields += [(s.at(a), x, y, False) for x, y in s.split(a + 2, s.close[a + 1])]
            elif s.at(a + 1) == "{" and a + 1 < b:
                item.fields += self.fields(a + 1)
        item.end = s.close[i] + 1
        return item

    def trait_item(self, item, i):
        s = self.s
        item.kind = "trait"
        i = self.head(item, i + 1)
        if s.at(i) != "{":
            s.refuse(i, "a form of trait")
        item.items = self.items(i + 1, s.close[i], "trait")
        item.end = s.close[i] + 1
        return item

    def impl_item(self, item, i):
        s = self.s
        item.kind = "impl"
        i += 1
        if s.at(i) == "<":
            item.generics = (i, s.angle(i))
            i = item.generics[1] + 1
        start = i
        brace = self.type_end(i, ("{", "where"))
        for k in range(start, brace):
            if s.at(k) == "for":
                item.trait, start = self.path_name(i, k), k + 1
        item.name = self.path_name(start, brace)
        item.parameters = (i, brace)
        if s.at(brace) == "where":
            s.refuse(brace, "a where of an impl")
        item.items = self.items(brace + 1, s.close[brace], "impl")
        for part in item.items:
            part.around = item
        item.end = s.close[brace] + 1
        return item

    def path_name(self, i, j):
        """The last name of the path that stands from i on."""
        s = self.s
        if not s.is_word(i):
            s.refuse(i, "a path is wanted")
        while i + 2 < j and s.at(i + 1) == "::":
            i += 2
        return s.at(i)

    def fn_item(self, item, i):
        s = self.s
        item.kind = "fn"
        i = self.head(item, i + 1)
        s.want(i, "(")
        item.parameters = (i + 1, s.close[i])
        for a, b in s.split(*item.parameters):
            if s.at(a) == "ghost":
                s.refuse(a, "a ghost parameter")
        i = s.close[i] + 1
        ends = ("where", "requires", "ensures", "{", ";")
        if s.at(i) == "->":
            end = self.type_end(i + 1, ends)
            item.answer = (i + 1, end)
            i = end
        if s.at(i) == "where":
            end = self.type_end(i + 1, ends[1:])
            item.where = (i, end)
            i = end
        while s.at(i) in ("requires", "ensures"):
            start = i
            i += 1
            i += s.at(i) == "*"
            i += s.is_word(i)
            i = s.term(s.want(i, "{") - 1) + 1
            item.clauses.append((s.at(start), start, i))
        if s.at(i) == ";":
            item.end = i + 1
        elif s.at(i) == "{":
            item.body = (i + 1, s.close[i])
            item.end = s.close[i] + 1
        else:
            s.refuse(i, f"`{s.at(i)}` behind the head of a function")
        return item
