"""Cases of refusals.py: texts in Rattle, which the translator refuses or keeps, and texts in Rust that the second reader refuses."""

# Parts of what follows: the heads of two functions up to their clauses' ends, a law, a step with its operation and its word, and what is
# written for it.
F = "fn f(n: u32) -> u32\n    ensures { result ≡ n + 1"
G = "fn g(n: u32) -> u32\n    ensures { result ≡ n"
LAW = "fn a_law()\n    ensures { x }\n{\n}\n\n"
STEP = """use poolsteps::{{Grid, {1}}};

trait Aim {{
    ghost key: {{ ℕ }};
}}

struct Enter;

struct Leave;

struct Look;

impl Grid {{
    fn step<J: Aim>(&self, spot: u32) -> u64 {{
        self.table.shared.{0}(hand, {1} + spot.start as usize, 4)
    }}
}}
"""
STEPPED = """use crate::word::Grid;

struct Enter;

struct Leave;

struct Look;

impl Grid {{
    fn step(&self, spot: u32) -> u64 {{
        self.{}4)
    }}
}}
"""

# A line of a function's body, an item or a field that is no form of the sources, and what is said of it.
REFUSED = [
    ("a proof in a body", "fn f() {\n    prove! { x }\n}\n", 2, "a macro prove!"),
    ("a ghost value", "fn f() {\n    ghost let x = { 1 };\n}\n", 2, "`ghost`"),
    ("a ghost parameter", "fn f(\n    ghost x: { Nat },\n) {\n}\n", 2, "a ghost parameter"),
    ("a clause of a loop", "fn f(n: usize) {\n    while n > 0\n        decreases { n }\n    {\n    }\n}\n", 3, "`0 decreases`"),
    ("a clause that is no contract", "fn f()\n    aborts { x }\n{\n}\n", 2, "`aborts`"),
    ("the runtime's handle", "fn f(rt: Runtime) {\n    print!(rt; 1);\n}\n", 2, "a macro print!"),
    (
        "a drop by value",
        "struct S;\n\nimpl Drop for S {\n    fn drop(self) {\n        let S { x } = self;\n    }\n}\n",
        3,
        "a drop by value",
    ),
    ("an import of std", "use std::thread::spawn;\n\nfn f() {\n    spawn();\n}\n", 1, "an import of std::thread::spawn"),
    ("a name of proofs in a body", "use std::marker::Brand;\n\nfn f() {\n    let b = Brand;\n}\n", 4, "for proofs alone"),
    ("an attribute", "#[no_mangle]\nfn f() {\n}\n", 1, "an attribute `no_mangle`"),
    ("a sign that Rust hasn't", "fn f(n: u32) -> bool {\n    n ≡ 1\n}\n", 2, "a sign `≡`"),
    ("a call of clone", "fn f(n: &u32) -> u32 {\n    n.clone()\n}\n", 2, "a call of clone"),
    ("a type argument", "fn f(n: &Row) {\n    n.read::<u32>();\n}\n", 2, "a type argument `u32`"),
    ("an unknown item", "static LIMIT: u32 = 4;\n", 1, "an item that begins with `static`"),
    ("a name twice", "fn a_law()\n    ensures { x }\n{\n}\n\nfn a_law() {\n    f();\n}\n", 6, "a_law stands twice"),
    ("a module with a body", "mod inner {\n}\n", 1, "`;` is wanted"),
    ("a comment in a clause that hides a brace", f"{F} -- {{\n    }}\n{{\n    n\n}}\n\n{G} -- }}\n    }}\n{{\n    n\n}}\n", 2, "`--`"),
    ("the same by {- -}", f"{F} {{- {{ -}} }}\n{{\n    n\n}}\n\n{G} {{- }} -}} }}\n{{\n    n\n}}\n", 2, "`{-`"),
    ("a comment in an import for proofs", "ghost use Laws.{a -- {\n};\nfn f() {\n}\nghost use Laws.{b -- }\n};\n", 1, "`--`"),
    (
        "a name // in a clause",
        "fn f(n: u32) -> u32\n    ensures { let // = n in\n        result ≡ n }\n{\n    n\n}\n",
        2,
        "a comment in a term",
    ),
    ("a quote in a clause", "fn f(n: u32) -> u32\n    ensures { let n' = n in result ≡ n' }\n{\n    n\n}\n", 2, "a sign"),
    ("a text in a clause", "fn f(n: u32)\n    ensures { text \"}\" }\n{\n}\n", 2, "in a term for proofs"),
    (
        "a string of several lines",
        LAW + "fn f() -> &'static str {\n    let text = \"a\n// b\";\n    a_law();\n    // c\";\n    text\n}\n",
        7,
        "several lines",
    ),
    ("an import in a body", LAW + "fn f() {\n    use crate::other::a_law;\n    a_law();\n}\n", 7, "`use` inside of a body"),
    (
        "a function in a body",
        "fn f(n: u32) -> u32 {\n    fn g(n: u32) -> u32 {\n        n\n    }\n    g(n)\n}\n",
        2,
        "`fn` inside of a body",
    ),
    ("a law as a closure", LAW + "fn f(n: &mut u32) {\n    let no = || a_law();\n    *n += 1;\n}\n", 7, "for proofs alone"),
    (
        "a name that no import has, which may stand for a variable",
        "fn f(n: u32) -> bool {\n    match n.cmp(&1) {\n        Less => true,\n        _ => false,\n    }\n}\n",
        3,
        "`Less`, which no import names",
    ),
    ("a type named as one of Rust's", "struct u32 {\n    a: u8,\n    b: u64,\n}\n", 1, "a name of Rust's own"),
    ("a trait named as one of Rust's", "trait Drop {\n    fn drop(self);\n}\n", 1, "a name of Rust's own"),
    ("an import named as a law", {"lib": LAW, "other": "pub use crate::words::f as a_law;\n"}, "other:1", "stands for two things"),
    ("a name of two things", "use crate::words::f;\nuse seqpool::f;\n\nfn g() {\n    f();\n}\n", 2, "stands for two things"),
    ("an attribute of an import", "#[cfg(test)]\nuse seqpool::f;\n\nfn g() {\n    f();\n}\n", 1, "an attribute of an import"),
    ("an attribute of what goes", "#[cfg(test)]\n" + LAW, 1, "an attribute `cfg`"),
    (
        "the size of a value",
        "use std::mem;\n\nfn f(n: &(u8, u32)) -> usize {\n    mem::size_of_val(n)\n}\n",
        4,
        "a path that begins with mem",
    ),
    ("another function of mem", "use std::mem;\n\nfn f(n: &mut u32) -> u32 {\n    mem::take(n)\n}\n", 4, "a path that begins with mem"),
    ("a path into Rust's core", "fn f(n: u32) -> u32 {\n    core::hint::black_box(n)\n}\n", 2, "a path that begins with core"),
    (
        "a range without an end",
        "fn f(n: &mut u32) {\n    for i in 250u8.. {\n        *n = i as u32;\n    }\n}\n",
        2,
        "a range without an end",
    ),
    ("one as an argument", "fn f() -> u32 {\n    g(250u8.., 1)\n}\n", 2, "a range without an end"),
    ("one in an array", "fn f() -> u32 {\n    g([250u8..])\n}\n", 2, "a range without an end"),
    (
        "the fields of another value",
        "struct S {\n    a: u32,\n}\n\nfn f(row: &[S]) -> S {\n    S { a: 1, ..row[7] }\n}\n",
        6,
        "the fields of another value",
    ),
    ("a call of clone by its path", "struct S;\n\nfn f(n: &S) {\n    let _ = S::clone(n);\n}\n", 4, "a call of clone"),
    ("a call of cloned", "fn f(n: Option<&u32>) -> Option<u32> {\n    n.cloned()\n}\n", 2, "a call of cloned"),
    ("a step by another operation", STEP.format("fetch_sub::<Enter<J>>", "LIVES_START"), 15, "a form of step"),
    ("a step at another word", STEP.format("fetch_add::<Enter<J>>", "LINKS_START"), 15, "a form of step"),
    ("an unknown step", STEP.format("load::<Look<J>>", "LIVES_START"), 15, "a form of step"),
    ("a table without a step", "struct S;\n\nimpl S {\n    fn f(&self) -> u64 {\n        self.table.shared\n    }\n}\n", 5, "a form of step"),
    ("an object", "fn f<T: Clear>(object: &T) {\n}\n", 1, "an object"),
    ("a row of objects", "fn f<T: Clear>(row: &Vec<T>) {\n}\n", 1, "`Vec<T>`"),
    ("another parameter of types", "fn f<E: Clear>() {\n}\n", 1, "a parameter of types"),
    ("what is by hand by another name", "use poolsteps::Grid as Table;\n\nfn f(table: &Table) {\n}\n", 1, "by another name"),
]

# A text of a file, and what must be left of it.
KEPT = [
    ("a step", STEP.format("fetch_add::<Enter<J>>", "LIVES_START"), "self.enters(4)"),
    ("another one", STEP.format("fetch_sub::<Leave<J>>", "LIVES_START"), "self.leaves(4)"),
    ("what is lent", "use poolsteps::Grid;\n\nfn f<T: Clear>(grid: &Grid<T>) {\n}\n", "fn f(grid: &Grid<'_>) {}"),
    ("a number, and another name", "struct S {\n    number: u32,\n    numbers: u32,\n}\n", "struct S {\n    numbers: u32,\n}"),
    ("an argument that a step depends on", "fn f(hand: u32, key: u32) {\n    g(hand, key, hand.size);\n}\n", "fn f(key: u32) {\n    g(key, hand.size);\n}"),
]

# A text of a file, and a wrong one for it, which the second reader refuses.
WRONG = [
    (
        "a body that a comment hides",
        f"{F} -- {{\n    }}\n{{\n    n\n}}\n\n{G} -- }}\n    }}\n{{\n    0\n}}\n",
        "fn f(n: u32) -> u32 {\n    0\n}\n",
    ),
    (
        "the same by {- -}",
        f"{F} {{- {{ -}} }}\n{{\n    n\n}}\n\n{G} {{- }} -}} }}\n{{\n    0\n}}\n",
        "fn f(n: u32) -> u32 {\n    0\n}\n",
    ),
    (
        "a line of a string",
        LAW + "fn f() -> &'static str {\n    let text = \"a\n// b\";\n    a_law();\n    // c\";\n    text\n}\n",
        "fn f() -> &'static str {\n    let text = \"a\n    // c\";\n    text\n}\n",
    ),
    ("another function", LAW + "fn f() {\n    use crate::other::a_law;\n    a_law();\n}\n", "fn f() {\n    use crate::other::a_law;\n}\n"),
    (
        "a law as a closure",
        LAW + "fn f(n: &mut u32) {\n    let no = || a_law();\n    g(n);\n}\n",
        "fn f(n: &mut u32) {\n    let no = || g(n);\n}\n",
    ),
    ("the size of a value", "fn f(n: &S) -> usize {\n    mem::size_of_val(n)\n}\n", "fn f(n: &S) -> usize {\n    mem::size_of_val(n)\n}\n"),
    ("a range without an end", "fn f() {\n    for i in 250u8.. {\n    }\n}\n", "fn f() {\n    for i in 250u8.. {\n    }\n}\n"),
    ("a step by another operation", STEP.format("fetch_sub::<Enter<J>>", "LIVES_START"), STEPPED.format("enters(")),
    ("a step at another word", STEP.format("fetch_add::<Enter<J>>", "LINKS_START"), STEPPED.format("enters(")),
    ("another step", STEP.format("fetch_sub::<Leave<J>>", "LIVES_START"), STEPPED.format("enters(")),
    ("another argument that is left out", "fn f(n: u32) {\n    g(n, n);\n}\n", "fn f(n: u32) {\n    g(n);\n}\n"),
    ("a statement that takes more", "fn f() {\n    let mut hand = g(n);\n}\n", "fn f() {\n}\n"),
    ("a drop that is left out", "struct S;\n\nimpl Drop for S {\n    fn drop(self) {\n    }\n}\n", "struct S;\n"),
]

# A file, and what is left of it.
ERASED = """//! A crate.
#![tactic(auto)]
ghost use Rattle.std.specs.Prelude.{ℕ};

use poolsteps::Grid;
use std::marker::{Brand, Model};

/// How many.
#[derive(Clone, Copy, Drop)]
pub struct Count {
    /// Of them.
    pub size: u32,
    // It is small.
    ghost small: { size < 8 },
}

impl Model for Count {
    ghost Value = { ℕ };
}

/// The next one.
pub fn next<T: Clear + Drop>(grid: &Grid<T>, count: Count) -> Count
    requires { count.size < 7 }

    // One more.
    ensures more { result.size ≡ count.size + 1 }
{
    a_law();
    grid.look(count);
    Count {
        size: count.size + 1,
    }
}

#[cold]
#[inline(never)]
fn first() -> Count {
    Count { size: 0 }
}

fn a_law()
    ensures { x }
{
}
"""
LEFT = """// Made from crates/seatcalls/src/lib.rt by tools/erase/erase.py: change that file, not this one.

//! A crate.

use crate::word::Grid;

/// How many.
#[derive(Clone, Copy)]
pub struct Count {
    /// Of them.
    pub size: u32,
}

/// The next one.
#[inline]
pub fn next(grid: &Grid<'_>, count: Count) -> Count {
    grid.look(count);
    Count {
        size: count.size + 1,
    }
}

#[cold]
#[inline]
fn first() -> Count {
    Count { size: 0 }
}
"""
