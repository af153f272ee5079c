#!/usr/bin/env python3
"""Makes the man pages and the shell completions of `poolrun` and `poolview` from the tables of their command lines, and that of the C calls.

    tools/manual/make.py            writes them into docs/pages
    tools/manual/make.py --check    compares them with the tables; the status is 1 where one differs

A page or a completion is never edited: change crates/commandline/src/run_lines.rt or view_lines.rt, or bindings/c/pardz.h, and run this
again.
"""
import pathlib
import re
import sys

sys.dont_write_bytecode = True
import calls

ROOT = pathlib.Path(__file__).resolve().parent.parent.parent
PAGES = ROOT / "docs" / "pages"
SOURCES = ROOT / "crates" / "commandline" / "src"
PROGRAMS = {"poolrun": "run_lines.rt", "poolview": "view_lines.rt"}
TOKEN = re.compile(r'\s+|//[^\n]*|"(?:\\.|[^"\\])*"|[A-Za-z_][A-Za-z0-9_]*|\'[a-z]+|.', re.DOTALL)
ESCAPES = {"n": "\n", '"': '"', "\\": "\\", "t": "\t"}


class Refused(Exception):
    """A table that this script can't read."""


def text_of(literal):
    """The text of a string literal; a line's end behind a backslash, and the blanks behind that, are no part of it."""
    body = re.sub(r"\\\n\s*", "", literal[1:-1])
    return re.sub(r"\\(.)", lambda found: ESCAPES[found[1]], body, flags=re.DOTALL)


class Reader:
    """Reads the values of a table: texts, structs, enum values, lists, and names of constants that stand above."""

    def __init__(self, source):
        tokens = (found[0] for found in TOKEN.finditer(source))
        self.tokens = [token for token in tokens if not token.isspace() and not token.startswith("//")]
        self.at = 0
        self.constants = {}

    def peek(self):
        return self.tokens[self.at] if self.at < len(self.tokens) else ""

    def take(self, wanted=None):
        token = self.peek()
        if wanted is not None and token != wanted:
            raise Refused(f"{wanted} is wanted where {token} stands")
        self.at += 1
        return token

    def list_until(self, end):
        values = []
        while self.peek() != end:
            values.append(self.value())
            if self.peek() == ",":
                self.take()
        self.take(end)
        return values

    def fields(self):
        fields = {}
        while self.peek() != "}":
            name = self.take()
            self.take(":")
            fields[name] = self.value()
            if self.peek() == ",":
                self.take()
        self.take("}")
        return fields

    def value(self):
        token = self.take()
        if token == "&":
            return self.value()
        if token.startswith('"'):
            return text_of(token)
        if token == "[":
            return self.list_until("]")
        if self.peek() == "{":
            self.take()
            return self.fields()
        while self.peek() == ":":
            self.take(":")
            self.take(":")
            token = self.take()
        if self.peek() == "(":
            self.take()
            inside = self.list_until(")")
            return inside[0] if token == "Some" else (token, inside[0])
        if token == "None":
            return None
        return self.constants.get(token, (token, None))

    def read(self):
        """The constants of the file, by their names."""
        while self.peek():
            if self.take() in ("const", "static"):
                name = self.take()
                while self.take() != "=":
                    pass
                self.constants[name] = self.value()
        return self.constants


def table_of(program):
    """The name of a program, what help says of it, its version where it has one, and its subcommands."""
    constants = Reader((SOURCES / PROGRAMS[program]).read_text()).read()
    return {
        "name": program,
        "source": PROGRAMS[program],
        "help": constants["PROGRAM_HELP"],
        "version": constants.get("VERSION"),
        "lines": [value for value in constants.values() if isinstance(value, dict) and "arguments" in value],
    }


def options_of(line):
    return [argument for argument in line["arguments"] if argument["kind"][0] != "Positional"]


def positionals_of(line):
    return [argument for argument in line["arguments"] if argument["kind"][0] == "Positional"]


def usages_of(table, line):
    """The lines of a subcommand's usage: those of the table, or else made from its arguments."""
    usage = line["help"]["usage"]
    if usage is None:
        words = [f"<{argument['kind'][1]}>" for argument in positionals_of(line)]
        words += ["[OPTIONS]"] if options_of(line) else []
        return [" ".join([table["name"], line["name"], *words])]
    return [part.strip() for part in usage.split("\n")]


# ---- man pages


def roff(text):
    """A text for roff: each sign stands for itself, and a leading point is no request."""
    escaped = text.replace("\\", "\\e").replace("-", "\\-").replace("`", "\\(ga").replace("'", "\\(aq")
    return "\n".join("\\&" + line if line.startswith(".") else line for line in escaped.split("\n"))


def block(text):
    """Lines as they stand."""
    return [".nf", roff(text), ".fi"]


def option_lines(argument):
    kind, value_name = argument["kind"]
    if kind == "Positional":
        head = f"\\fI{roff(value_name)}\\fR"
    elif kind in ("Valued", "Needed"):
        head = f"\\fB\\-\\-{roff(argument['name'])}\\fR \\fI{roff(value_name)}\\fR"
    else:
        head = f"\\fB\\-\\-{roff(argument['name'])}\\fR"
    return [".TP", head, roff(argument["help"])]


def statuses_of(text):
    """What help says around its table of statuses, and the table: rows of a status and what it comes after."""
    before, _, rows = text.partition("Exit status:\n")
    return before.rstrip("\n"), [row.split(None, 1) for row in rows.split("\n")]


def status_lines(rows):
    """A table, for tbl."""
    out = [".SH EXIT STATUS", ".TS", "tab(|) allbox;", "lb lb", "l lx.", "status|after"]
    for status, after in rows:
        out += [f"{status}|T{{", roff(after), "T}"]
    return [*out, ".TE"]


def environment_lines(name):
    return [".SH ENVIRONMENT", ".TP", "\\fBPOOL_EXPLAIN\\fR", roff(f"If it is never, {name} says no more at a terminal than elsewhere, unless its words ask for it, as --explain does.")]


def man_page(table):
    name = table["name"]
    about = table["help"]["about"].replace("\n", " ")
    notes, statuses = statuses_of(table["help"]["more"])
    out = [
        "'\\\" t",
        f'.\\" Made from crates/commandline/src/{table["source"]} by tools/manual/make.py: change that file, not this one.',
        f'.TH {name.upper()} 1 "" "{" ".join(part for part in (name, table["version"]) if part)}"',
        ".SH NAME",
        f"{name} \\- {roff(about[0].lower() + about[1:].split(':')[0])}",
        ".SH SYNOPSIS",
        ".nf",
        *[roff(usage) for line in table["lines"] for usage in usages_of(table, line)],
        ".fi",
        ".SH DESCRIPTION",
        roff(about),
        ".SH COMMANDS",
    ]
    for line in table["lines"]:
        out += [f".SS {line['name']}", roff(line["help"]["about"]) + "."]
        for argument in line["arguments"]:
            out += option_lines(argument)
        out += [".PP", *block(line["help"]["more"]), ".PP", *block(line["help"]["example"])]
    out += status_lines(statuses) + environment_lines(name)
    out += [".SH NOTES", *block(notes), ".SH EXAMPLES", *block(table["help"]["example"])]
    return "\n".join(out) + "\n"


# ---- completions


# When mistakes are explained, and when progress is told: what may stand behind --explain= and --progress=.
WISHES = ("never", "always", "auto")


def wishes_of(line):
    """The words that say so."""
    named = [argument["name"] for argument in line["arguments"] if argument["name"] in ("progress", "explain")]
    return [f"--{name}={wish}" for name in named for wish in WISHES]


def long_options(line):
    return ["--" + argument["name"] for argument in options_of(line)] + wishes_of(line) + ["--help"]


def bash_completion(table):
    name = table["name"]
    commands = " ".join(line["name"] for line in table["lines"])
    top = "--help --version" if table["version"] else "--help"
    out = [
        f'# Made from crates/commandline/src/{table["source"]} by tools/manual/make.py: change that file, not this one.',
        f"_{name}() {{",
        "    local word=${COMP_WORDS[COMP_CWORD]} before=${COMP_WORDS[COMP_CWORD-1]}",
        "    COMPREPLY=()",
        "    if [ \"$COMP_CWORD\" -eq 1 ]; then",
        f"        mapfile -t COMPREPLY < <(compgen -W '{commands} {top}' -- \"$word\")",
        "        return",
        "    fi",
        "    case ${COMP_WORDS[1]} in",
    ]
    for line in table["lines"]:
        valued = ["--" + argument["name"] for argument in options_of(line) if argument["kind"][0] in ("Valued", "Needed")]
        out += [f"    {line['name']})"]
        if valued:
            out += [f"        case $before in {' | '.join(valued)}) return ;; esac"]
        out += [
            "        if [[ $word == -* ]]; then",
            f"            mapfile -t COMPREPLY < <(compgen -W '{' '.join(long_options(line))}' -- \"$word\")",
        ]
        if any(argument["name"] != "number" for argument in positionals_of(line)):
            out += ["        else", "            mapfile -t COMPREPLY < <(compgen -f -- \"$word\")"]
        out += ["        fi", "        ;;"]
    out += ["    esac", "}", f"complete -o filenames -F _{name} {name}"]
    return "\n".join(out) + "\n"


def quoted(text):
    return "'" + text.replace("'", "'\\''") + "'"


def fish_completion(table):
    name = table["name"]
    out = [f'# Made from crates/commandline/src/{table["source"]} by tools/manual/make.py: change that file, not this one.']
    out += [f"complete -c {name} -n __fish_use_subcommand -l help -d 'Says what there is'"]
    if table["version"]:
        out += [f"complete -c {name} -n __fish_use_subcommand -l version -d 'Says the version'"]
    for line in table["lines"]:
        out += [f"complete -c {name} -f -n __fish_use_subcommand -a {line['name']} -d {quoted(line['help']['about'])}"]
        for argument in options_of(line):
            wants = " -x" if argument["kind"][0] in ("Valued", "Needed") else ""
            out += [f"complete -c {name} -n '__fish_seen_subcommand_from {line['name']}' -l {argument['name']}{wants} -d {quoted(argument['help'])}"]
    return "\n".join(out) + "\n"


def zsh_text(text):
    return text.replace("\\", "\\\\").replace("'", "'\\''").replace("[", "\\[").replace("]", "\\]").replace(":", "\\:")


def zsh_argument(argument):
    kind, value_name = argument["kind"]
    if kind == "Positional":
        action = "_files" if argument["name"] != "number" else " "
        return f"'1:{zsh_text(value_name)}:{action}'"
    if kind in ("Valued", "Needed"):
        return f"'--{argument['name']}[{zsh_text(argument['help'])}]:{zsh_text(value_name)}: '"
    return f"'--{argument['name']}[{zsh_text(argument['help'])}]'"


def zsh_completion(table):
    name = table["name"]
    top = "'(- *)'{--help,--version}'[Says what there is]'" if table["version"] else "'(- *)--help[Says what there is]'"
    out = [
        f"#compdef {name}",
        f'# Made from crates/commandline/src/{table["source"]} by tools/manual/make.py: change that file, not this one.',
        "local context state line",
        f"_arguments -C {top} '1:command:->command' '*::argument:->argument'",
        "case $state in",
        "command)",
        "    local -a commands=(",
        *[f"        '{line['name']}:{zsh_text(line['help']['about'])}'" for line in table["lines"]],
        "    )",
        "    _describe command commands",
        "    ;;",
        "argument)",
        "    case $words[1] in",
    ]
    for line in table["lines"]:
        arguments = [zsh_argument(argument) for argument in line["arguments"]] + ["'--help[Says what there is]'"]
        out += [f"    {line['name']})", "        _arguments " + " ".join(arguments), "        ;;"]
    out += ["    esac", "    ;;", "esac"]
    return "\n".join(out) + "\n"


def pages():
    """Each page and completion, by its path."""
    made = {PAGES / "man" / "pardz.3": calls.man_page(roff)}
    for program in PROGRAMS:
        table = table_of(program)
        made[PAGES / "man" / f"{program}.1"] = man_page(table)
        made[PAGES / "completions" / f"{program}.bash"] = bash_completion(table)
        made[PAGES / "completions" / f"{program}.fish"] = fish_completion(table)
        made[PAGES / "completions" / f"_{program}"] = zsh_completion(table)
    return made


def main():
    if sys.argv[1:] not in ([], ["--check"]):
        print(__doc__, file=sys.stderr)
        return 2
    wrong = 0
    for path, text in pages().items():
        if sys.argv[1:] == []:
            path.parent.mkdir(exist_ok=True)
            path.write_text(text)
        elif not path.exists() or path.read_text() != text:
            print(f"{path.relative_to(PAGES)} is not what its source says: run tools/manual/make.py", file=sys.stderr)
            wrong = 1
    return wrong


if __name__ == "__main__":
    sys.exit(main())
