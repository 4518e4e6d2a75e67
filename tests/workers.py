#!/usr/bin/env python3
"""Runs programs that come to rest by several workers: python3 tests/workers.py PROGRAM

A ring of four nodes, and 20 nodes that hand a number on, each RUNS times by 2, 3 and 4 workers. A run came to rest if
it wrote what one worker writes. Workers keep together, so nearly every run does, also on a busy machine. If they don't,
most of the runs by 3 and 4 workers don't. So up to MISSED of a program's runs may not come to rest. The last line that
is printed is 'workers: N passed, M failed', a program each, and the exit status is 0 if M is 0.
"""
import os
import subprocess
import sys

from schedules import side_to

FOLDER = os.path.dirname(os.path.abspath(__file__))
RUNS = 5
MISSED = 2
TURNS = '1000000'
SECONDS = 120


def handing_on(names):
    """Source text of nodes, of which the first sends 1, and each other adds 1 to what it gets and sends it on."""
    lines = [f'node {names[0]:03} {side_to(names[0], names[1])} b! $1 !b jump warm']
    for before, name, behind in zip(names, names[1:], names[2:]):
        lines.append(f'node {name:03} {side_to(name, before)} a! {side_to(name, behind)} b! @ $1 + !b jump warm')
    lines.append(f'node {names[-1]:03} {side_to(names[-1], names[-2])} a! @ $1 + jump warm')
    return '\n'.join([*lines, ''])


def programs():
    """Each program: its name, its route and its source text."""
    with open(f'{FOLDER}/../examples/ring/ring.source', encoding='utf-8') as file:
        yield 'ring', [708, 709, 609, 608], file.read()
    names = [*range(18), 117, 116]
    yield 'handing on', names, handing_on(names)


def written(program, names, source, workers):
    """What `run` writes."""
    route = ','.join(f'{name:03}' for name in names)
    args = [program, 'run', route, str(workers), TURNS]
    ran = subprocess.run(args, input=source, capture_output=True, timeout=SECONDS, text=True)
    return ran.stdout if ran.returncode == 0 else f'status {ran.returncode}'


def missed(program, names, source):
    """How many runs by several workers don't write what one worker writes, and whether that has the right number."""
    expected = written(program, names, source, 1)
    number = expected.split(' T ')[1 if len(names) == 4 else len(names)].split()[0]
    wrong = sum(
        written(program, names, source, workers) != expected for workers in (2, 3, 4) for _ in range(RUNS)
    )
    return wrong, int(number, 16) == len(names)


def main():
    program, failed, passed = os.path.abspath(sys.argv[1]), 0, 0
    for name, names, source in programs():
        wrong, is_right = missed(program, names, source)
        if wrong > MISSED or not is_right:
            print(f'FAILED {name}: {wrong} of {3 * RUNS} runs did not come to rest, the number is right: {is_right}')
            failed += 1
        else:
            passed += 1
    print(f'workers: {passed} passed, {failed} failed')
    return 1 if failed else 0


if __name__ == '__main__':
    sys.exit(main())
