"""Boots the routes of the recorded cases in random orders: python3 tests/schedules.py PROGRAM FILE..

For each case of a FILE (as tests/run_cases.py has them) that writes a boot stream for at most NODES nodes, ORDERS sessions
of PROGRAM boot its route, or its tree of routes. Tries and turns come in random order, and breakpoints are set, cleared
and passed. At random moments the session asks how far the nodes are. If the first node has then taken the whole load
part, each node with an image that hasn't started must have it in memory, with zeros behind it. The number of words that
a node has taken is that of the steps of the first node or of the ledgers, and the number that it is sent follows from
the lengths of the images. The last line that is printed is 'schedules: N passed, M failed', a session each, and the exit
status is 0 if M is 0.
"""
import itertools
import json
import random
import subprocess
import sys
from concurrent.futures import ThreadPoolExecutor

NODES = 10
ORDERS = 6
ROUNDS = 60
SECONDS = 60
PORTS = {'right': '1D5', 'down': '115', 'left': '175', 'up': '145'}


def run(program, args, text):
    ran = subprocess.run([program, *args], input=text, capture_output=True, timeout=SECONDS, text=True)
    return ran.stdout.splitlines()


def neighbours(name):
    """The sides of a node, each with the neighbour there."""
    row, column = divmod(name, 100)
    east, north = ('right', 'left')[column % 2], ('down', 'up')[row % 2]
    west, south = ('left', 'right')[column % 2], ('up', 'down')[row % 2]
    places = {east: (row, column + 1), west: (row, column - 1), north: (row + 1, column), south: (row - 1, column)}
    return {side: r * 100 + c for side, (r, c) in places.items() if 0 <= r < 8 and 0 <= c < 18}


def side_to(name, other):
    return next(side for side, there in neighbours(name).items() if there == other)


def images_of(lines):
    """The words of each node, by the lines that `asm` writes."""
    images, name = {}, None
    for line in lines:
        if line.startswith('node '):
            name = int(line.split()[1])
            images[name] = []
        else:
            images[name] += line.split()
    return images


def feeds(words):
    """For each step of the first node up to the last word of its stream, how many words it has taken then."""
    taken, at = [0], 0
    while at < len(words):
        transfer, count = int(words[at + 1], 16), int(words[at + 2], 16)
        for word in range(3 + count):
            at += 1
            # a word for a port is taken, posted, and seen to be read
            taken += [at] * (3 if word >= 3 and transfer & 0x100 else 1)
    return taken


def children_of(text):
    """The nodes of a ROUTE in the order in which its routes first name them, each with those that it boots, in order."""
    children = {}
    for route in text.split('/'):
        names = [int(name) for name in route.split(',')]
        for parent, name in zip([None, *names], names):
            if name not in children:
                children[name] = []
                if parent is not None:
                    children[parent].append(name)
    return children


def sent(name, children, images, counts):
    """How many words a node is sent to load and to start; puts the sums, also those of nodes behind it, into the counts."""
    load = 2 + (5 + len(images[name]) if name in images else 0)
    start = 1
    for child in children[name]:
        behind = sent(child, children, images, counts)
        load, start = load + 5 + behind[0], start + 5 + behind[1]
    counts[name] = load + start
    return load, start


def session(children, images, words, chance):
    """The commands of a session, each with what it asks for, if it asks for something."""
    route = [*children]
    turns = max(4, len(words) // 2)
    near = [*route, *{other for name in route for other in neighbours(name).values()}]
    commands = []
    for _ in range(ROUNDS):
        for _ in range(chance.randrange(1, 12)):
            name = chance.choice(route if chance.random() < 0.8 else near)
            commands.append((f'try {name:03} {chance.choice("rdlu")}', None))
        if chance.random() < 0.7:
            commands.append((f'turn {chance.randrange(turns)}', None))
        if chance.random() < 0.2:
            commands.append((f'break {chance.choice(route):03} {chance.choice([*PORTS.values(), "000", "001"])}', None))
        for name in route:
            commands += [(f'pass {name:03}', None)] * (chance.random() < 0.3)
        for name in route:
            for address in [*PORTS.values(), '000', '001']:
                commands += [(f'clear {name:03} {address}', None)] * (chance.random() < 0.1)
        commands.append((f'regs {route[0]:03}', 'regs'))
        commands += [(f'ports {name:03}', 'ports') for name in route if children[name]]
        commands += [(f'mem {name:03}', 'mem') for name in route if name in images]
    return commands


def answers(commands, lines):
    """The lines of the reply to each command that asks."""
    at = 0
    for command, asks in commands:
        name = command.split()[1]
        count = 8 if asks == 'mem' else len(neighbours(int(name))) if asks == 'ports' else 1
        if asks:
            yield asks, int(name), lines[at:at + count]
        at += count
    if at != len(lines):
        raise ValueError(f'{len(lines)} lines instead of {at}')


def moments(case, program, number):
    """How many nodes had to hold their images, over all moments of the order with a number; a text where one didn't."""
    chance = random.Random(f"{case['name']} {number}")
    children = children_of(case['args'][1])
    root = next(iter(children))
    lines = case['stdout'].splitlines()
    words = [word for line in lines if not line.startswith(('load ', 'start ')) for word in line.split()]
    load = int(lines[0].split()[1])
    images, taken = images_of(run(program, ['asm'], case['stdin'])), feeds(words)
    counts = {}
    sent(root, children, images, counts)
    commands = session(children, images, words, chance)
    head = f"profile 2\nroute {case['args'][1]}\n{case['stdin']}\ngo\n"
    told = run(program, ['debug'], head + ''.join(f'{command}\n' for command, _ in commands))
    held, fed, read = 0, 0, {}
    for asks, name, lines in answers(commands, told):
        if asks == 'regs':
            steps = int(lines[0].split(' steps ')[1].split()[0])
            fed = taken[min(steps, len(taken) - 1)]
        elif asks == 'ports':
            for child in children[name]:
                side = side_to(name, child)
                read[child] = next(int(line.split()[5]) for line in lines if line.split()[1] == side)
        elif fed >= load and (fed < len(words) if name == root else read[name] < counts[name]):
            ram = [word for line in lines for word in line.split()[1:]]
            if ram != images[name] + ['00000'] * (64 - len(images[name])):
                return f"{case['name']}: {name:03} doesn't hold its image"
            held += 1
    return held


def main(program, *files):
    cases = []
    for file in files:
        with open(file, encoding='utf-8') as lines:
            cases += [case for case in map(json.loads, lines) if case['args'][:1] == ['boot'] and case['status'] == 0]
    cases = [case for case in cases if len(children_of(case['args'][1])) <= NODES]
    with ThreadPoolExecutor() as pool:
        found = list(pool.map(lambda it: moments(it[0], program, it[1]), itertools.product(cases, range(ORDERS))))
    failed = [it for it in found if isinstance(it, str)]
    held = [it for it in found if not isinstance(it, str)]
    # without such a moment in any session the test would show nothing
    if sum(1 for it in held if it > 0) * 2 < len(held) or not held:
        failed.append('too few sessions have a moment at which a node had to hold its image')
    print('\n'.join(failed), end='\n' if failed else '')
    print(f'schedules: {len(held)} passed, {len(failed)} failed')
    return 1 if failed else 0


if __name__ == '__main__':
    sys.exit(main(*sys.argv[1:]))
