#!/usr/bin/env python3
"""Errors and warnings of source text in a FILE: python3 tests/faults_of_texts.py PROGRAM [--whole] [KIND..]"""
import json
import random
import re
import time

import answers
from faulty_texts import NODES, faulty_text, long_text, misspelt_text
from including import has_includes
from jobs import LIMIT, MODELLED, OF_ALL_ERRORS, all_reports, job
from testing import main
from text_faults import MOST_FAULTS, parts_of
from vcd import is_sanitized
from worked_faults import WORD, worked as worked_texts

FILE = "my.source"
SHORT = 200
# The recorded texts of at most this many bytes are read: a program with an address sanitizer takes minutes for some of
# the others.
MOST_BYTES = 2000


def worked(test):
    """Texts with their errors and what helps, by hand: the models find these, and each subcommand reports them."""
    for number, (text, told) in enumerate(worked_texts()):
        reports = all_reports(text, FILE)
        found = [(f"{it.line}:{it.column}", it.name, it.node, it.hint) for it in reports]
        test.expect(f"the models, {text[-SHORT:]!r}", found, told)
        test.write(FILE, text)
        jobs = OF_ALL_ERRORS if len(text) < SHORT else [*map(job, ["asm", "lint", "lint --json"])]
        if job("expand").fault_of(text):
            jobs = [*jobs, job("expand")]
        for it in jobs if test.is_whole else jobs[number % 3 :: 3]:
            test.expect(f"{it.line} with {text[-SHORT:]!r}", test.run(it.words(FILE)), it.refusal(reports))


def judge(test, what, text, lines, *jobs):
    """These subcommands, and the jobs if there is an error, answer like the models. Returns the kinds of messages."""
    test.write(FILE, text)
    status, told, _ = job("lint --json").answer(text, FILE)
    for it in [*map(job, lines), *(jobs if status else [])]:
        test.expect(f"{what}, {it.line} of {text!r}", test.run(it.words(FILE)), it.answer(text, FILE))
    found = [json.loads(row) for row in told.split("\n")[:-1]]
    return {(it["level"], it["hint"] and it["hint"].split()[0]) for it in found} or {"nothing"}


def any_text(test):
    """Random texts: with errors, with misspelt words, too long for their node; and the texts of recorded cases."""
    dice, kinds = random.Random(1), set()
    for number in range(test.size(20, 300)):
        for text in faulty_text(dice, dice.choice([8, 30])), misspelt_text(dice), long_text(dice):
            kinds |= judge(test, number, text, [*dice.sample(MODELLED, 2), "lint --json"], dice.choice(OF_ALL_ERRORS))
    cases = [it for it in answers.CASES if it["args"][:1] in (["lint"], ["expand"], ["list"])]
    texts = [it.get("stdin", "") for it in cases if not {"pad_to", "stdin_base64"} & {*it}]
    texts = [it for it in texts if len(it) <= MOST_BYTES and not has_includes(it)][:: test.size(7, 1)]
    for number, text in enumerate(texts):
        kinds |= judge(test, f"recorded {number}", text, MODELLED)
    missing = {("error", None), ("error", "the"), ("error", "it"), ("warning", None), "nothing"} - kinds
    test.expect("no kind of messages is missing", missing, set())


def parts(test):
    """Each part of a random text, as a FILE, has one message at most. The models make those of the text of these."""
    dice = random.Random(2)
    for number in range(test.size(10, 150)):
        for part in parts_of(faulty_text(dice, 24)):
            test.holds(f"{number}: {part!r} has one message or none", len(all_reports(part, FILE)) < 2)
            judge(test, number, part, ["asm"])


def large_texts(most):
    """What is large, a text of at most this many bytes, and how many errors it has, if something helps with each."""
    sections = "".join(f"node {name} .\n" for name in NODES[:143]) + "node 717 frob\n"
    body, rest = f"{'. ' * 100}\nend\n", most - len(sections)
    count = rest // len(f"body B00000\n{body}")
    yield "long definitions", "".join(f"body B{at:05}\n{body}" for at in range(count)) + sections, None
    yield "many constants", "".join(f"const C{at:05} {at}\n" for at in range(rest // 19)) + sections, None
    yield "a long first section", f"node 000 .{' ' * (rest - 12)}\n{sections}", None
    yield "empty lines", "\n" * rest + sections, None
    yield "sections", "node 000 frob\n" * (most // 14), None
    yield "sections with nothing", "node 000\n" * (most // 9), None
    yield "no section", "frob " * (most // 5), None
    yield "long lines with errors", "".join(f"node {name} {'. ' * (most // 310)}frob\n" for name in NODES), None
    shared = f"body B\n{' dup' * (most // 8)}\nend\n"
    yield "a body that sections share", shared + "".join(f"node {name} use B frob\n" for name in NODES), None
    word = "ABCDEFGHIJKLMNOPQRSTUVWX"
    faults = "".join(f"node {name} {word}\n" for name in NODES[:20])
    near = "".join(f"const abcdefghij{at:06} 5\n" for at in range((most - len(faults) - 50) // 25))
    yield "far words and constants", f"{near}const {word[:16]} 5\n{faults}", 20
    labels = "".join(f"abcdefghij{at:06}:\n" for at in range((most - 100) // 18))
    yield "a far word and labels", f"node 709\n{labels}{word[:15]}: jump {word[:16]}\n", 1
    yield "jumps", "node 709\n" + "".join(f"at{at:06}: jump at{at:06}\n" for at in range((most - 9) // 24)), 1
    yield "words", "node 709\n" + WORD * ((most - 9) // 6), 1
    too_long = "5 " * ((most - 200) // 40)
    yield "nodes that are too long", "".join(f"node {name}\n{too_long}\n" for name in NODES[:20]), 20


def large(test):
    """Texts of about 1,048,576 bytes that take the most time; for a program with an address sanitizer shorter ones."""
    is_long = test.is_whole and not is_sanitized(test.program)
    for name, text, count in large_texts(LIMIT if is_long else LIMIT // 64):
        test.write(FILE, text)
        start = time.time()
        status, output, error = test.run(["asm", FILE])
        print(f"large: {name}, {len(text)} bytes: {time.time() - start:.1f} s")
        found = len(re.findall(": error: .*; (?:the nearest name is|it needs) " if count else ": error: ", error))
        test.expect(name, (status, output, found if count else 1 <= found <= MOST_FAULTS), (1, "", count or True))


if __name__ == "__main__":
    main(__doc__, worked, any_text, parts, large)
