"""Compares verdicts on races: python3 tests/races.py PROGRAM

Each line of tests/races.jsonl is a program with its verdict, as an earlier program apart from this one found it:
  text              the head of a session
  verdict           race, at rest or round
  turns             the turn at which it was noticed, which isn't compared
  moved             the steps in all, compared at rest if no node spins
  multiport_takes   how many multiport reads took a word, compared there too
  spins             which nodes spin, compared at rest
  round             how many turns a round has
  race              the node, the address that it reads, its step, and both words with their sides and writers
`check` must accept the witness of each race. Its replies must show both words pending, and `regs` behind it as many steps
of both writers.
The last line that is printed is 'races: N passed, M failed', and the exit status is 0 if M is 0.
"""
import json
import os
import re
import subprocess
import sys
from concurrent.futures import ThreadPoolExecutor
from functools import partial

FOLDER = os.path.dirname(os.path.abspath(__file__))
RACE = re.compile(
    r"race: (?P<node>\d{3}) (?:in its loader|at [0-9A-F]{3}(?: \S+)?) reads (?P<address>[0-9A-F]{3})(?: \(line \d+\))?; "
    r"the schedule decides which word it takes\n"
    r"  (?P<words>.*\n  .*)\n"
)
WORD = re.compile(r"(right|down|left|up) +([0-9A-F]{5}) from (\d{3})(?: at ([0-9A-F]{3})(?: \S+)?| in its loader)(?: \(line \d+\))?")
REST = re.compile(
    r"no race: no schedule leads elsewhere\n"
    r"  at rest after \d+ turns?, (\d+) steps?, (\d+) multiport reads?(?:; spinning:((?: \d{3})+))?\n"
)
ROUND = re.compile(
    r"no race in 2 rounds of (\d+) turns\n  all is as before a round after \d+ turns, \d+ steps, \d+ multiport reads?\n"
)


def run(program, args, text):
    ran = subprocess.run([program, *args], input=text.encode(), capture_output=True, timeout=60)
    return ran.returncode, ran.stdout.decode(), ran.stderr.decode()


def word_of(text):
    side, word, writer, at = WORD.fullmatch(text.strip()).groups()
    return side, int(word, 16), int(writer), at and int(at, 16)


def race_shown(program, case):
    """What the text of a race and its witness show, and what they should."""
    status, output, _ = run(program, ["race"], case["text"])
    race, found = case["race"], RACE.fullmatch(output)
    words = sorted(map(word_of, found["words"].split("\n")))
    came = [status, int(found["node"]), int(found["address"], 16), words]
    takes = [(it["side"], it["word"], it["writer"], it["writer_at"]) for it in race["takes"]]
    wanted = [1, race["node"], race["read_address"], sorted(takes)]
    status, witness, _ = run(program, ["race", "--witness"], case["text"])
    commands = len(re.findall("^> ", witness, re.M))
    came += [status, run(program, ["check"], witness), pending_of(witness, race)]
    wanted += [1, (0, f"same {commands}\n", ""), [1, 1]]
    nodes = [race["node"], *(it["writer"] for it in race["takes"])]
    came.append([steps_behind(program, witness, node) for node in nodes])
    wanted.append([race["step"] - 1, *(it["writer_step"] for it in race["takes"])])
    return came, wanted


def pending_of(witness, race):
    """How many words of the two writers are pending at the reader's sides."""
    sides = {(it["writer"], it["side"]) for it in race["takes"]}
    shown = re.findall(r"^(\d{3}) (\w+) written \d+ read \d+ pending (\d)", witness, re.M)
    return [int(count) for node, side, count in shown if (int(node), side) in sides]


def steps_behind(program, witness, node):
    """How many steps a node has made at the end of a witness."""
    _, recording, _ = run(program, ["record"], f"{witness}> regs {node:03}\n")
    return int(re.findall(r"^node .* steps (\d+) need", recording, re.M)[-1])


def rest_shown(program, case):
    status, output, _ = run(program, ["race"], case["text"])
    moved, reads, spins = REST.fullmatch(output).groups()
    spins = [int(it) for it in (spins or "").split()]
    counts = [] if spins else [int(moved), int(reads)]
    return [status, spins, counts], [0, case["spins"], [] if case["spins"] else [case["moved"], case["multiport_takes"]]]


def round_shown(program, case):
    status, output, _ = run(program, ["race"], case["text"])
    return [status, int(ROUND.fullmatch(output)[1])], [0, case["round"]]


SHOWN = {"race": race_shown, "at rest": rest_shown, "round": round_shown}


def difference(program, case):
    try:
        came, wanted = SHOWN[case["verdict"]](program, case)
    except (AttributeError, TypeError, subprocess.TimeoutExpired) as error:
        return f"no text of its verdict: {error!r}"
    return "" if came == wanted else f"wanted {wanted}\n    came {came}"


def main(program):
    with open(f"{FOLDER}/races.jsonl", encoding="utf-8") as lines:
        cases = [json.loads(line) for line in lines]
    with ThreadPoolExecutor(os.cpu_count()) as pool:
        found = list(pool.map(partial(difference, os.path.abspath(program)), cases))
    for case, why in zip(cases, found):
        if why:
            print(f"FAILED {case['name']}\n    {why}")
    failed = sum(map(bool, found))
    print(f"races: {len(cases) - failed} passed, {failed} failed")
    return failed != 0


if __name__ == "__main__":
    if len(sys.argv) != 2:
        sys.exit(__doc__)
    sys.exit(main(sys.argv[1]))
