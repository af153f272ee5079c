"""The rows of docs/BENCHMARK.md: what is timed, over what, and how often.

A column is what a row is timed over; its cases are those of a program, by the row's round. A row names its round, its threads, how many
rounds each thread makes, and its columns.
"""

# A column: its head in the page, its program, and the case of a round.
COLUMNS = {
    "proved": ("proved pool", "poolbench", "{}"),
    "guest": ("by guests", "poolbench", "guest-{}"),
    "c": ("from C", "c", "{}"),
    "crate": ("crate", "peers", "pardz-{}"),
    "lane": ("by lanes", "peers", "lane-{}"),
    "module": ("module", "peers", "dropin-{}"),
    "vec": ("of `Vec<u8>`", "peers", "dropinvec-{}"),
    "slab": ("sharded-slab", "peers", "slab-{}"),
    "mutex": ("slab under a lock", "peers", "row-{}"),
    "queue": ("queue under a lock", "peers", "queue-{}"),
    "arc": ("fresh `Arc`", "peers", "arc-{}"),
}
# The same by owned references.
OWNED = {"crate": "owned-{}", "module": "dropinowned-{}", "slab": "slabowned-{}"}
# Where the round's name in poolbench isn't the one of peers.
GUEST_ROUNDS = {"get-many": "guest-many", "cycle": "guest-cycle"}

# What one thread does in each round; the text of the page. Sizes: buffers of 64 bytes.
ROUNDS = {
    "get-many": "a get of one of 16 own keys in turn, a read of the length, a release",
    "get-large": "the same of one of 64,512 objects at random",
    "get-shared": "the same of one key that the first thread put, by all threads",
    "get-miss": "a get of a key that was cleared",
    "cycle": "a create, a copy of 64 bytes, a publish, a clear",
    "life": "the same with a get and a read before the clear",
    "held": "the same with the reference held over the clear, and released after it",
    "calls": "`cycle` from C by four calls in place of a put and a clear",
    "churn": "24 objects are live: the oldest is cleared, and a new one published",
    "churn-1000": "the same with 1,000 live objects",
    "churn-20000": "the same with 20,000",
    "miss": "a clear of a key that was cleared",
    "pass": "a cycle whose clear another thread makes, up to 16 keys behind",
    "free-16": "a thread publishes 16 objects, and another clears them",
    "free-100": "the same with 100",
    "free-1000": "the same with 1,000",
    "random-100000": "100,000 objects are published in a fresh pool, cleared in a random order, and the pool is dropped",
    "million": "a million objects are published in a fresh pool, which is dropped",
    "page": "the same with 1,985",
    "hundred": "the same with 100",
    "open": "the same with none",
    "get-of-8": "`get-many`, but each get from another one of 8 pools",
    "cycle-of-8": "`cycle`, but each from another one of 8 pools",
}

ALL = ("proved", "guest", "c", "crate", "lane", "module", "vec", "slab", "mutex", "queue", "arc")
KEYS = ("crate", "module", "slab", "mutex")
POOLS = ("crate", "module", "slab")
BY_LANES = ("crate", "lane", "module", "slab", "mutex")
THREADS = (1, 2, 4, 8, 16, 32, 64)


class Row:
    """A row: what is timed together, in turns."""

    def __init__(self, name, threads, rounds, columns, turns=15, owned=False):
        self.name, self.threads, self.rounds = name, threads, rounds
        self.columns, self.turns, self.owned = columns, turns, owned
        self.key = f"{'owned-' if owned else ''}{name}@{threads}"

    def case(self, column):
        """The program of a column and its case."""
        _, program, form = COLUMNS[column]
        if column == "guest":
            return program, GUEST_ROUNDS[self.name]
        if self.owned:
            form = OWNED[column]
        return program, form.format(self.name)

    def head(self):
        """The row's name in the page."""
        words = f"`{self.name}`"
        if self.owned:
            words += ", owned"
        return words + (f", {self.threads} threads" if self.threads > 1 else "")


def on_threads(name, columns, rounds):
    """A row for each number of threads of the chart; with more threads each makes fewer rounds, since some columns then take far longer."""
    return [Row(name, threads, rounds * 4 // max(4, threads.bit_length() ** 2), columns, turns=15 if threads <= 8 else 7) for threads in THREADS]


ROWS = [
    *on_threads("get-many", tuple(it for it in ALL if it != "queue"), 500_000),
    *on_threads("cycle", ALL, 250_000),
    Row("get-large", 1, 300_000, ("proved", *KEYS)),
    Row("get-shared", 2, 100_000, ("proved", *KEYS, "arc")),
    Row("get-shared", 4, 50_000, ("proved", *KEYS, "arc")),
    Row("get-miss", 1, 1_000_000, KEYS),
    Row("life", 1, 250_000, (*KEYS, "arc")),
    Row("held", 1, 200_000, ("proved", *KEYS, "arc")),
    Row("churn", 1, 300_000, ("proved", *KEYS, "arc")),
    Row("churn", 4, 150_000, ("proved", *KEYS, "arc")),
    Row("churn-1000", 1, 200_000, BY_LANES),
    Row("churn-1000", 4, 100_000, KEYS),
    Row("churn-20000", 1, 200_000, BY_LANES),
    Row("churn-20000", 4, 100_000, KEYS),
    Row("miss", 1, 1_000_000, ("proved", *KEYS)),
    Row("pass", 2, 60_000, ("proved", *KEYS)),
    Row("free-16", 2, 5_000, KEYS),
    Row("free-100", 2, 600, KEYS),
    Row("free-1000", 2, 100, KEYS),
    Row("random-100000", 1, 3, BY_LANES, turns=7),
    Row("million", 1, 2, KEYS, turns=5),
    Row("page", 1, 40, ("proved", *KEYS)),
    Row("hundred", 1, 500, KEYS),
    Row("open", 1, 20_000, POOLS),
    Row("get-many", 1, 300_000, POOLS, owned=True),
    Row("get-many", 4, 150_000, POOLS, owned=True),
    Row("cycle", 1, 200_000, POOLS, owned=True),
    Row("life", 1, 150_000, POOLS, owned=True),
    Row("life", 4, 100_000, POOLS, owned=True),
    Row("get-of-8", 1, 500_000, KEYS),
    Row("cycle-of-8", 1, 200_000, KEYS),
    Row("get-many", 200, 4_000, KEYS),
    Row("cycle", 200, 2_000, (*KEYS, "queue")),
]

# Instructions of a round on one thread: by the round, the columns.
INSTRUCTIONS = {
    "get-many": ("proved", "guest", "c", "crate", "lane", "module", "vec", "slab", "mutex", "arc"),
    "cycle": ("proved", "guest", "c", "crate", "lane", "module", "vec", "slab", "mutex", "queue", "arc"),
    "churn": ("proved", *KEYS),
    "held": ("proved", *KEYS),
    "miss": ("proved", *KEYS),
    "get-large": ("proved", *KEYS),
    "get-miss": KEYS,
    "calls": ("c",),
}
# Those of the proved pool alone: of its cases, what they are.
PROVED_ALONE = {
    "get16-many": "`get-many` in a pool of 16 lanes",
    "cycle16": "`cycle` in a pool of 16 lanes",
    "cycle64": "`cycle` in a pool of 64 lanes",
    "pass": "`pass`",
    "full16": "a create in a full pool of 16 lanes, which looks through 15 stacks",
    "full64": "the same of 64 lanes",
    "clone": "an owned reference cloned, read by the clone, which is dropped",
    "look-many": "`get-many` by a lane of a store (`lanestore`), taken for the call",
}

# The slowest calls: by the call, the columns; `nothing` is the clock alone. By the threads, the rounds of each.
TAILS = ("crate", "module", "slab", "mutex", "queue", "arc")
TAIL_COLUMNS = {"get": ("crate", "module", "slab", "mutex", "arc"), "cycle": TAILS, "nothing": ("crate",)}
TAIL_THREADS = ((1, 1_000_000), (4, 300_000), (200, 5_000))

HEAP = ("crate", "module", "slab", "mutex", "queue")
OBJECTS = (1, 100, 1_000, 10_000, 100_000, 1_000_000)
