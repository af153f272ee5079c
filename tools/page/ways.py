"""Tries the page on which one chooses whose turn is next.

A way that is chosen there, by keys and by buttons, shows what `poolview json` has of the replay of its schedule, turn by turn, and ends with the
replies of that replay. Wants both programs, which `rt ci` leaves in crates/NAME/out, or POOLRUN=FILE and POOLVIEW=FILE.
"""
import json
import math
import os
import pathlib
import random
import subprocess

from graphs import graph_of
from trial import CLICKED, CONTRASTS, FOCUSED, NARROW, OUTLINE, ROOT, WIDE

SCRIPTS = ("poolview/data/stranger.json", "poolview/data/leavers.json", "poolview/data/returns.json")
# The shown way as it is read from its lines.
TURNS = "learnTo(count); turns"
SCHEDULE = "document.querySelector('#choice code').textContent"
BUTTONS = "Array.from(document.querySelectorAll('#choice button')).map(it => it.dataset.lane)"
HEADS = "['choice', 'ends'].map(name => document.querySelector(`#${name} h2`).textContent)"


def program(name):
    return pathlib.Path(os.environ.get(name.upper()) or ROOT / f"crates/{name}/out/{name}")


def told(*words, given=None):
    """What a program writes."""
    return subprocess.run(words, input=given, check=True, capture_output=True, timeout=120).stdout


def replayed(script, schedule):
    """The turns of a replay, as JSON has them, and its reply lines by rising lanes."""
    trace = told(program("poolrun"), "replay", script, "--schedule", schedule)
    replies = [line for line in trace.decode().splitlines() if line.split(" ")[1] == "="]
    return json.loads(told(program("poolview"), "json", "-", given=trace)), sorted(replies, key=lambda line: int(line.split(" ")[0]))


class Graph:
    """A script's states, and the page of them."""

    def __init__(self, script, folder):
        self.script = ROOT / "crates" / script
        graph = graph_of(program("poolrun"), self.script)
        self.states, self.outcomes = graph["states"], graph["outcomes"]
        self.page = pathlib.Path(folder) / (self.script.stem + ".html")
        self.page.write_bytes(told(program("poolview"), "page", "-", given=json.dumps(graph).encode()))

    def behind(self, lanes):
        """The state behind the turns of these lanes."""
        state = 0
        for lane in lanes:
            state = next(turn["to"] for turn in self.states[state]["turns"] if turn["lane"] == lane)
        return self.states[state]


def heads(graph, lanes):
    """What stands over the choice and over the outcomes, behind the turns of these lanes."""
    state, count = graph.behind(lanes), len(graph.outcomes)
    ends = state["ends"]
    first = "Whose turn is next" if state["turns"] else f"No lane has a turn left: outcome {ends[0] + 1}"
    return [first, f"{len(ends)} of {count} outcome{'' if count == 1 else 's'} can still come"]


def is_at(it, graph, what, lanes):
    """The page stands behind the turns of these lanes."""
    state = graph.behind(lanes)
    it.note(f"{what}: the schedule", it.of(SCHEDULE), ",".join(map(str, lanes)) or "empty")
    it.note(f"{what}: the lanes to choose from", it.of(BUTTONS), [str(turn["lane"]) for turn in state["turns"]])
    it.note(f"{what}: the heads", it.of(HEADS), heads(graph, lanes))
    gone = it.of("document.querySelectorAll('#ends tr.gone').length")
    it.note(f"{what}: outcomes that can't come any more", gone, len(graph.outcomes) - len(state["ends"]))


def walks(it, graph, drawn):
    """A way that is chosen lane by lane is the replay of its schedule."""
    it.open(WIDE)
    is_at(it, graph, "at the start", [])
    lanes = []
    while turns := graph.behind(lanes)["turns"]:
        lane = drawn.choice(turns)["lane"]
        lanes.append(lane)
        if drawn.random() < 0.5:
            it.press(str(lane))
        else:
            it.of(f"document.querySelector(\"#choice button[data-lane='{lane}']\").click()")
        it.note("the place of the turn", it.text("where"), f"turn {len(lanes) - 1} of 0 to {len(lanes) - 1}")
    is_at(it, graph, "at the end", lanes)
    wanted, replies = replayed(graph.script, ",".join(map(str, lanes)))
    it.note(f"the turns of {lanes}", it.of(TURNS), wanted)
    it.note(f"the outcome of {lanes}", list(graph.outcomes[graph.behind(lanes)["ends"][0]]["replies"]), replies)
    return lanes


def turns_back(it, graph, lanes, drawn):
    """Back and forth; another lane in place of one that was chosen; the address keeps the way."""
    at = drawn.randrange(len(lanes))
    for _ in range(len(lanes) - at):
        it.press("ArrowLeft")
    is_at(it, graph, f"{at} turns on", lanes[:at])
    it.note("what is kept", it.text("where"), f"turn {at - 1} of 0 to {len(lanes) - 1}" if at else f"before turns 0 to {len(lanes) - 1}")
    it.press(str(lanes[at]))
    it.note("the same lane again keeps the way", it.text("where"), f"turn {at} of 0 to {len(lanes) - 1}")
    it.press("ArrowLeft")
    other = [turn["lane"] for turn in graph.behind(lanes[:at])["turns"] if turn["lane"] != lanes[at]]
    if other:
        lanes = [*lanes[:at], other[0]]
        it.press(str(other[0]))
        it.note("another lane cuts the way", it.text("where"), f"turn {at} of 0 to {at}")
    it.press("Home")
    is_at(it, graph, "back at the start", [])
    it.press("End")
    it.of("new Promise(done => setTimeout(done, 400))")
    kept = it.of("location.hash")
    it.note("the address", kept.split("@")[0], "#" + ",".join(str(turn["lane"]) for turn in it.of(TURNS)))
    before = it.of(TURNS)
    it.open(WIDE, turn=kept[1:])
    it.note("the way of the address", it.of(TURNS), before)


def leads(it, graph):
    """A way to each outcome, from the start and from elsewhere, is the replay of its schedule."""
    for number, outcome in enumerate(graph.outcomes):
        it.open(WIDE)
        it.of(f"document.querySelectorAll('#ends button')[{number}].click()")
        it.press("End")
        lanes = [int(lane) for lane in it.of(SCHEDULE).split(",")]
        it.note(f"the first way to outcome {number + 1}", lanes, outcome["first"])
        wanted, replies = replayed(graph.script, ",".join(map(str, lanes)))
        it.note(f"the turns to outcome {number + 1}", it.of(TURNS), wanted)
        it.note(f"the replies of outcome {number + 1}", replies, list(outcome["replies"]))


def is_plain(it, lanes):
    """All text stands out, nothing is beside the window, Tab reaches the lanes and the outcomes."""
    address = ",".join(map(str, lanes)) + f"@{len(lanes) // 2}"
    for size in (WIDE, NARROW):
        for scheme in ("light", "dark"):
            it.open(size, scheme, turn=address)
            it.note(f"texts without contrast, {scheme}, {size[0]} pixels", it.of(CONTRASTS)["wrong"], [])
        it.note("the width", it.of(f"document.documentElement.scrollWidth <= {size[0]}"), True)
        it.note("the choice is seen", it.of("at('choice').getBoundingClientRect().bottom <= innerHeight && at('choice').getBoundingClientRect().top >= 0"), True)
        wanted, reached = it.of(CLICKED), []
        for _ in range(len(wanted) + 20):
            it.press("Tab")
            reached.append(it.of(FOCUSED))
            if it.of(OUTLINE) < 1:
                it.wrong.append(f"no outline of {reached[-1]}")
        it.note("what no key reaches", [each for each in wanted if each not in reached], [])


def tries(it, graph):
    """All of it, of a script."""
    drawn = random.Random(graph.script.stem)
    for _ in range(2):
        lanes = walks(it, graph, drawn)
        turns_back(it, graph, lanes, drawn)
    leads(it, graph)
    is_plain(it, lanes)


SIDE = 70


def many_states():
    """A graph of 71 times 71 states, in which each of two lanes makes 70 turns."""
    number = lambda first, second: first * (SIDE + 1) + second
    states = []
    for first in range(SIDE + 1):
        for second in range(SIDE + 1):
            count = first + second
            words = f"{4294967297 + 4 * count} {4294967297 + 4 * (count + 1)}"
            turns = [{"lane": lane, "to": number(first + (lane == 0), second + lane), "lines": [f"{lane} ENTER 0 {words}"]} for lane, made in ((0, first), (1, second)) if made < SIDE]
            states.append({"turns": turns, "ends": [0]})
    return {"script": "{}", "lanes": 2, "states": states, "outcomes": [{"schedules": "1", "first": [], "replies": []}]}


def is_quick(it, seconds):
    """So many states are seen within these seconds, and each choice at once."""
    it.open(WIDE)
    opened = it.of("performance.getEntriesByType('navigation')[0].loadEventEnd")
    it.note(f"{(SIDE + 1) ** 2} states within {seconds} seconds ({opened:.0f} ms)", opened < 1000 * seconds, True)
    it.note("the ways through a grid", it.of("ways.schedulesFrom(0).get(0).toString()"), str(math.comb(2 * SIDE, SIDE)))
    it.press(*"01" * SIDE)
    it.note("the end", it.of(HEADS), ["No lane has a turn left: outcome 1", "1 of 1 outcome can still come"])
