#!/usr/bin/env python3
"""Compares turns with their tries: python3 tests/turns.py PROGRAM [--chips N] [--seed SEED]

`turn` of the program lets nodes make own steps ahead. Here random chips make the same turns in three ways: by `turn`, by
tries one after the other, and those of a route also by `run` with one worker, which tries no other node. Breakpoints are
set and cleared and passes given in between. In the end all nodes, their memory and their ledgers are compared, and how
many steps each `turn` made.

The chips are those of recorded cases and of the programs for races, boots of routes and of trees among them; chips of
random words, which read several ports, post, and come to extended mode; and chips of loops that only count. The last
line that is printed is 'turns: N passed, M failed', a chip each, and the exit status is 0 if M is 0.
"""
import argparse
import json
import os
import random
import subprocess
import sys
from concurrent.futures import ThreadPoolExecutor

FOLDER = os.path.dirname(os.path.abspath(__file__))
NODES = [f"{row}{column:02}" for row in range(8) for column in range(18)]
SECONDS = 60


def run(program, arguments, text):
    return subprocess.run([program, *arguments], input=text, capture_output=True, timeout=SECONDS, text=True)


def recorded_heads():
    """The heads of recorded sessions that load a chip, and of the programs for races."""
    heads = []
    for name in ("debug", "trees_debug"):
        with open(f"{FOLDER}/cases/{name}.jsonl", encoding="utf-8") as file:
            heads += [case["stdin"] for case in map(json.loads, file) if case.get("status") == 0 and "\ngo\n" in case["stdin"]]
    with open(f"{FOLDER}/races.jsonl", encoding="utf-8") as file:
        heads += [json.loads(line)["text"] for line in file]
    return [text[: text.index("\ngo\n") + 4] for text in heads if text.startswith("profile 2\n")]


def random_head(chance):
    """A chip of random words: most of its nodes, or a few."""
    names = chance.sample(NODES, chance.choice([1, 4, 30, 140]))
    # random words soon stop a node, so some are those of loops, and the last one is a jump
    loop, jumps = [0x2C9B2, 0x05A0A, 0x1A1D4, 0x24AB2], [0x10000, 0x10000, 0x10201, 0x101D5]
    lines = ["profile 2", "place"]
    for name in names:
        words = [chance.choice([chance.getrandbits(18), chance.choice(loop)]) for _ in range(chance.randint(1, 12))]
        lines.append(f"node {name} data {' '.join(f', ${word:05X}' for word in [*words, chance.choice(jumps)])}")
    return "\n".join([*lines, "go", ""])


def counting_head(chance):
    """A chip of rounds of `unext`, of which some change T, and of jumps of a word to itself."""
    lines = ["profile 2", "place"]
    for name in chance.sample(NODES, chance.choice([1, 10, 144])):
        slots = chance.choice([".", "2*", "2/", "-", "+*", ". .", "2* .", "2/ -", "- -", "- - .", "2/ 2* .", ". . ."])
        start, rounds = chance.getrandbits(18), chance.choice([0, 1, 5, 40, 300])
        behind = chance.choice(["drop jump main", "done: jump done", "right a! @ jump main"])
        lines.append(f"node {name} main: ${start:05X} {rounds} push align {slots} unext {behind}")
    return "\n".join([*lines, "go", ""])


def commands_of(chance):
    """Commands in which turns are as numbers."""
    commands = []
    for _ in range(chance.randint(1, 4)):
        node = chance.choice(NODES)
        address = chance.choice([0, 1, 2, 3, 0x175, 0x1D5, 0x195, chance.randrange(64)])
        commands += chance.choice([[], [f"break {node} {address:03X}"], [f"clear {node} {address:03X}"], [f"pass {node}"]])
        commands.append(chance.choice([1, 2, 7, 30, 128, 140]))
    return commands


def by_turns(commands):
    return [f"turn {it}" if isinstance(it, int) else it for it in commands]


def by_tries(commands):
    lines = []
    for it in commands:
        turns = [f"try {node} {'rdlu'[turn % 4]}" for turn in range(it) for node in NODES] if isinstance(it, int) else [it]
        lines += turns
    return lines


def of_all_nodes(program, head, lines):
    """The replies to these lines, and what the chip shows then."""
    views = [f"{view} {node}" for node in NODES for view in ("regs", "mem", "ports")]
    came = run(program, ["debug"], head + "".join(f"{line}\n" for line in [*lines, *views]))
    replies = came.stdout.splitlines()
    return replies[: len(lines)], replies[len(lines) :]


def moved_by_tries(commands, replies):
    """The replies to the commands, of those to their tries."""
    told = []
    for it in commands:
        count = 144 * it if isinstance(it, int) else 1
        told.append(f"moved {replies[:count].count('moved')}" if isinstance(it, int) else replies[0])
        replies = replies[count:]
    return told


def same_by_a_worker(program, head, turns):
    """Whether `run` with one worker leads the nodes of a route to what tries of these nodes lead to."""
    route, source = head.split("\n", 2)[1][len("route ") :], head.split("\n", 2)[2].removesuffix("go\n")
    nodes = list(dict.fromkeys(name for part in route.split("/") for name in part.split(",")))
    lines = [f"> try {node} {'rdlu'[turn % 4]}" for turn in range(turns) for node in nodes]
    views = [f"> {view} {node}" for node in nodes for view in ("node", "ports")]
    recorded = run(program, ["record"], head + "".join(f"{line}\n" for line in [*lines, *views])).stdout.splitlines()
    last = max(at for at, line in enumerate(recorded) if line == lines[-1])
    shown = [line for line in recorded[last + 2 :] if not line.startswith("> ")]
    return shown == run(program, ["run", route, "1", str(turns)], source).stdout.splitlines()


def check(program, heads, seed):
    """Whether a chip is alike in all ways."""
    chance = random.Random(seed)
    make = chance.choice([random_head, counting_head])
    head = chance.choice(heads) if chance.random() < 0.5 else make(chance)
    commands = commands_of(chance)
    told, shown = of_all_nodes(program, head, by_turns(commands))
    if len(shown) < 144 * 9:
        return False, head, commands
    replies, tried = of_all_nodes(program, head, by_tries(commands))
    is_alike = shown == tried and moved_by_tries(commands, replies) == told
    if is_alike and head.split("\n")[1].startswith("route "):
        is_alike = same_by_a_worker(program, head, chance.choice([3, 30, 140]))
    return is_alike, head, commands


def main():
    options = argparse.ArgumentParser(description=__doc__, formatter_class=argparse.RawDescriptionHelpFormatter)
    options.add_argument("program")
    options.add_argument("--chips", type=int, default=300)
    options.add_argument("--seed", type=int, default=1)
    given = options.parse_args()
    program, heads = os.path.abspath(given.program), recorded_heads()
    with ThreadPoolExecutor(os.cpu_count()) as pool:
        results = list(pool.map(lambda number: check(program, heads, f"{given.seed} {number}"), range(given.chips)))
    failed = [(head, commands) for is_alike, head, commands in results if not is_alike]
    for head, commands in failed[:5]:
        print(f"FAILED {head[:300]!r} .. {commands}")
    print(f"turns: {len(results) - len(failed)} passed, {len(failed)} failed")
    return 1 if failed else 0


if __name__ == "__main__":
    sys.exit(main())
