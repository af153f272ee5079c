#!/usr/bin/env python3
"""Makes the graph of a script's states (docs/FORMATS.md), which `poolview page` shows, by replays of its schedules.

usage: tools/page/graphs.py POOLRUN SCRIPT

Two schedules lead to one state if all lanes have then seen the same, each in its order, and all words are the same. So a state of the core can stand
in a graph more than once, and only small scripts have small graphs.
"""
import json
import pathlib
import subprocess
import sys


def replayed(poolrun, script, lanes):
    """The lines of a replay."""
    words = [poolrun, "replay", script, "--schedule", ",".join(map(str, lanes)) or "255"]
    return subprocess.run(words, check=True, capture_output=True, text=True, timeout=120).stdout.splitlines()


def seen(lines):
    """What lanes have seen, and what words are, as a text."""
    of_lane, words = {}, {}
    for line in lines:
        lane, what, *rest = line.split(" ")
        of_lane.setdefault(lane, []).append(line)
        if what != "=":
            words[f"{'link ' if what in ('LINK', 'FOLLOW') else ''}{rest[0]}"] = rest[2]
    return json.dumps([of_lane, words], sort_keys=True)


def add_turns(poolrun, script, lanes, states, number, found):
    """Adds the turns of a state, and the states that they lead to, where they aren't found yet."""
    state = states[number]
    for lane in range(lanes):
        lines = replayed(poolrun, script, [*state["way"], lane])
        if lines == state["lines"]:
            continue
        to = found.setdefault(seen(lines), len(states))
        if to == len(states):
            states.append({"way": [*state["way"], lane], "lines": lines, "turns": []})
        state["turns"].append({"lane": lane, "to": to, "lines": lines[len(state["lines"]) :]})


def states_of(poolrun, script, lanes):
    """All states, those of shorter schedules first."""
    states, number = [{"way": [], "lines": replayed(poolrun, script, []), "turns": []}], 0
    found = {}
    while number < len(states):
        add_turns(poolrun, script, lanes, states, number, found)
        number += 1
    return states


def replies_of(lines):
    """The reply lines, by rising lane."""
    return tuple(sorted((line for line in lines if line.split(" ")[1] == "="), key=lambda line: int(line.split(" ")[0])))


def schedules_to(states):
    """How many schedules lead to each state."""
    counts = [1] + [0] * (len(states) - 1)
    for number, state in enumerate(states):
        for turn in state["turns"]:
            counts[turn["to"]] += counts[number]
    return counts


def ends_of(states, outcomes):
    """Which outcomes can still come, of each state."""
    ends = [{outcomes.index(replies_of(state["lines"]))} if not state["turns"] else set() for state in states]
    for number in reversed(range(len(states))):
        for turn in states[number]["turns"]:
            ends[number] |= ends[turn["to"]]
    return ends


def first_way(states, ends, outcome):
    """The first schedule to an outcome, by the order of lane numbers."""
    way, state = [], states[0]
    while state["turns"]:
        turn = next(turn for turn in state["turns"] if outcome in ends[turn["to"]])
        way.append(turn["lane"])
        state = states[turn["to"]]
    return way


def graph_of(poolrun, script):
    """The graph of a script's states."""
    text = pathlib.Path(script).read_text()
    lanes = json.loads(text)["shape"]["lanes"]
    states = states_of(poolrun, script, lanes)
    last = [number for number, state in enumerate(states) if not state["turns"]]
    outcomes = list(dict.fromkeys(replies_of(states[number]["lines"]) for number in last))
    ends, counts = ends_of(states, outcomes), schedules_to(states)
    told = [
        {"schedules": str(sum(counts[at] for at in last if number in ends[at])), "first": first_way(states, ends, number), "replies": replies}
        for number, replies in enumerate(outcomes)
    ]
    return {"script": text, "lanes": lanes, "states": [{"turns": state["turns"], "ends": sorted(ends[number])} for number, state in enumerate(states)], "outcomes": told}


if __name__ == "__main__":
    if len(sys.argv) != 3:
        sys.exit(__doc__.strip())
    print(json.dumps(graph_of(*sys.argv[1:]), separators=(",", ":")))
