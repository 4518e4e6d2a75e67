#!/usr/bin/env python3
"""What `lint` reports of small programs, as a firmware author would write them: tests/mistakes.py PROGRAM [--whole] [KIND..]

MISTAKES has programs with a mistake each, and SOUND programs without one. Of a mistake the table has the warning that is sure, at
the item that it names, or none, with the reason.
"""
import random
import re

from linter import warnings_of
from testing import main

END = "end: jump end"

# What is wrong, the program, and the warnings, each with the text at its place.
MISTAKES = [
    (
        "each round of the loop takes the next word of the code",
        """
        node 708
        main: right b!  9 push
        send: 5 !b unext
        end: jump end
        """,
        {"UnextRepeats": "5 !b"},
    ),
    (
        "each round sets the count anew",
        """
        node 708
        main: 3 [ push unext ]
        end: jump end
        """,
        {"UnextRepeats": "[ push"},
    ),
    (
        "the loop begins where the word before it was full",
        """
        node 709
        main: right b! left a!  9 push
          @ !b unext
        end: jump end
        """,
        {"SplitLoop": "@ !b"},
    ),
    (
        "the last jump is missing",
        """
        node 708
        main: right b!
          5 !b
        """,
        {"RunsOff": "!b\n"},
    ),
    (
        "the code runs on into its table",
        """
        node 708
        main: right b!
          [ @p a! @+ . ] , table
          !b
        data
        table: , 5 , 6
        """,
        {"RunsOff": "!b\ndata"},
    ),
    (
        "the routine has no ;",
        """
        node 708
        main: 5 call double
        end: jump end
        double: dup +
        """,
        {"RunsOff": "dup +"},
    ),
    (
        "eleven words are pushed",
        """
        node 708
        main: 1 2 3 4 5 6 7 8 9 10 11
        end: jump end
        """,
        {"PushesTooMany": "9 10 11"},
    ),
    (
        "nothing was pushed that can be sent",
        """
        node 708
        main: right b! !b
        end: jump end
        """,
        {"PopsTooMany": "right"},
    ),
    (
        "there is nothing to add",
        """
        node 708
        main: right b!
          + !b
        end: jump end
        """,
        {"PopsTooMany": "right"},
    ),
    (
        "the routine is never called",
        """
        node 708
        main: right b!  5 call double !b
        end: jump end
        double: dup + ;
        half: 2/ ;
        """,
        {"UnusedLabel": "half:"},
    ),
    (
        "the first routine is never called",
        """
        node 708
        half: 2/ ;
        double: dup + ;
        main: right b!  9 push
        send: 5 call double !b next send
        end: jump end
        """,
        {"UnusedLabel": "half:"},
    ),
    (
        "code behind the endless loop",
        """
        node 709
        main: right a! left b!
        copy: @ !b jump copy
          0 !b
        """,
        {"Unreachable": "0 !b"},
    ),
    (
        "code behind the ; of a routine",
        """
        node 708
        main: right b!  5 call send
        end: jump end
        send: !b ;
          dup !b ;
        """,
        {"Unreachable": "dup !b"},
    ),
    (
        "code behind the jump to warm: a neighbour may lead there",
        """
        node 708
        main: right b!  5 !b
          jump warm
          6 !b
          jump warm
        """,
        {},
    ),
    (
        "a word is written to two ports at once",
        """
        node 708
        main: $1F5 b!  5 !b
        end: jump end
        """,
        {"SeveralPorts": "$1F5"},
    ),
    (
        "a word is written to all four ports",
        """
        node 304
        main: rdlu a!  5 !
        end: jump end
        """,
        {"SeveralPorts": "rdlu"},
    ),
    (
        "the program returns, and nothing called it",
        """
        node 708
        main: right b!  5 !b ;
        """,
        {"ReturnsNowhere": "!b ;"},
    ),
    (
        "the loop leaves extended mode",
        """
        node 708
        main: jump $201
        loop: 1 + align jump loop
        """,
        {"LeavesExtended": "jump loop"},
    ),
    (
        "a jump by a number that isn't among the words",
        """
        node 708
        main: right b!  5 !b
          align jump 40
        """,
        {"OverMemory": "jump 40"},
    ),
    (
        "a call of ROM, as on the real chip",
        """
        node 708
        main: 5 6 align call $2D3
        end: jump end
        """,
        {"OverMemory": "call $2D3"},
    ),
    (
        "the entry is behind the last word",
        """
        node 708
        main_loop: right b!  5 !b jump main_loop
        main:
        """,
        {"OverMemory": "main:\n"},
    ),
    (
        "the count is left under the return: R isn't followed into routines",
        """
        node 708
        main: right b!  5 call send
        end: jump end
        send: push !b ;
        """,
        {},
    ),
    (
        "both wait for each other: only a run shows that",
        """
        node 708
        main: right a!  @ !
        end: jump end
        node 709
        main: right a!  @ !
        end: jump end
        """,
        {},
    ),
    (
        "one word too few is sent: only a run shows that",
        """
        node 708
        main: right b!  5 !b
        end: jump end
        node 709
        main: right b!  @b @b + !b
        end: jump end
        """,
        {},
    ),
    (
        "the node reads before it chooses a port",
        """
        node 708
        main: @b right b!  1 + !b
        end: jump end
        """,
        {"ReadsIo": "@b right"},
    ),
    (
        "main is the label of the table",
        """
        node 708
        send: right b!  5 !b jump send
        data
        main: , 5
        """,
        {"BeginsInData": ", 5"},
    ),
    (
        "the node has a table alone, and is started",
        """
        node 709
        data
        table: , 1 , 2
        """,
        {"BeginsInData": ", 1"},
    ),
    (
        "a jump to the table",
        """
        node 708
        main: right b!  5 !b
          align jump table
        data
        table: , 5
        """,
        {"IntoData": "jump table"},
    ),
    (
        "a word is sent to the left from the edge",
        """
        node 000
        main: left b!  5 !b
        end: jump end
        """,
        {"EdgePort": "left"},
    ),
    (
        "a word is read from the left at the edge: on the chip, that may wait for a pin",
        """
        node 000
        main: left b!  @b
        end: jump end
        """,
        {},
    ),
]

SOUND = [
    (
        "a sender and a receiver",
        """
        node 708
        main: right b!  7 !b
        end: jump end
        node 709
        main: right b!  @b
        end: jump end
        """,
    ),
    (
        "an echo for ever",
        """
        node 708
        main: right a!
        echo: @ ! jump echo
        """,
    ),
    (
        "a loop by next",
        """
        node 708
        main: right b!  9 push
        send: 5 !b next send
          jump warm
        """,
    ),
    (
        "a loop by unext behind a label",
        """
        node 709
        main: right b! left a!  9 push
        copy: @ !b unext
          jump warm
        """,
    ),
    (
        "a loop by unext behind align",
        """
        node 709
        main: right b! left a!  9 push
          align @ !b unext
          jump warm
        """,
    ),
    (
        "a word that fills memory from its follower",
        """
        node 000
        main: $20 a!  9 push
          [ @p . . . ] , 0
        fill: dup !+ unext
          jump warm
        """,
    ),
    (
        "a product by eighteen steps",
        """
        node 000
        main: 3 5 call multiply
        done: jump done
        multiply: a! 0 17 push
          align . +* . unext
          drop drop a ;
        """,
    ),
    (
        "an absolute value",
        """
        node 709
        main: right a! left b!
        next_one: @ -if positive
          - 1 +
        positive: !b jump next_one
        """,
    ),
    (
        "a table that is sent",
        """
        node 708
        main: right b!
          [ @p a! . . ] , table
          2 push
        send: @+ !b next send
          jump warm
        data
        table: , 1 , 2 , 3
        """,
    ),
    (
        "a jump through a pushed address",
        """
        node 708
        main: [ @p push . . ] , two
          ;
        one: 1 jump end
        two: 2
        end: jump end
        """,
    ),
    (
        "a jump by ex",
        """
        node 708
        main: [ @p push ex . ] , there
        end: jump end
        there: 5 ex
        """,
    ),
    (
        "routines that a neighbour calls from warm",
        """
        node 708
        main: jump warm
        double: dup + ;
        half: 2/ ;
        node 709
        main: right b!  $12001 !b
        end: jump end
        """,
    ),
    (
        "routines that a neighbour calls from a port",
        """
        node 708
        main: jump right
        clear: dup or ;
        """,
    ),
    (
        "code that is written over, and then run",
        """
        node 708
        main: $10004 0 a!  !
          jump main
        here: 5 drop jump here
        """,
    ),
    (
        "a read of several ports",
        """
        node 709
        main: $1F5 a!  @ drop jump main
        """,
    ),
    (
        "a pin by io",
        """
        node 600
        main: io b!
        blink: $30000 !b $20000 !b jump blink
        """,
    ),
    (
        "B is that of io from the start",
        """
        node 600
        main: $30000 !b $20000 !b jump main
        """,
    ),
    (
        "nested routines",
        """
        node 708
        main: right b!  5 call fourfold !b
        end: jump end
        double: dup + ;
        fourfold: call double call double ;
        """,
    ),
    (
        "a read of io at the end stops the node",
        """
        node 709
        main: 5 7 + @b
        """,
    ),
    (
        "the stack is cleared first",
        """
        node 708
        main: drop drop dup or right b! !b
        end: jump end
        """,
    ),
    (
        "ten words are kept",
        """
        node 708
        main: 1 2 3 4 5 6 7 8 9 10
        end: jump end
        """,
    ),
    (
        "labels as marks",
        """
        node 708
        main: right b!
        first: 1 !b
        second: 2 !b
        end: jump end
        """,
    ),
    (
        "a sum of two words in extended mode",
        """
        node 000
        main: 1 $3FFFF $20000 $30000 align jump $206
          0 dup + drop + + jump warm
        """,
    ),
    (
        "push and pop as a third place",
        """
        node 709
        main: right a! left b! 0
        tap: @ push !b pop dup @ + !b jump tap
        """,
    ),
    (
        "a counter in memory",
        """
        node 708
        main: [ @p a! . . ] , count
          @ 1 + ! jump main
        data
        count: , 0
        """,
    ),
    (
        "two loops, one in the other",
        """
        node 708
        main: right b!  3 push
        outer: 4 push
        inner: 5 !b next inner
          next outer
          jump warm
        """,
    ),
    (
        "the code ends in a loop by if",
        """
        node 709
        main: right a!
        wait: @ if wait
          drop jump wait
        """,
    ),
    (
        "a routine that ends in a jump to another",
        """
        node 708
        main: right b!  5 call twice
        end: jump end
        send: !b ;
        twice: dup call send jump send
        """,
    ),
    (
        "words for a neighbour's port",
        """
        node 708
        main: right b!
          [ @p a! . . ] , work
          @+ !b @+ !b jump warm
        work:
          [ @p . . . ] , 5
          [ jump right ]
        """,
    ),
    (
        "a node at the edge with its three sides",
        """
        node 000
        main: right b!  1 !b
          down b!  2 !b
        end: jump end
        """,
    ),
]

SHOWN = re.compile(r"^-:(\d+):(\d+): warning: (\w+): .* \(node \d+\)$", re.M)


def lines_of(text):
    """A program of the table without the blanks in front of its lines."""
    return "".join(line.removeprefix("        ") + "\n" for line in text.strip("\n").rstrip(" ").splitlines())


def place_of(source, shown):
    """The line and the column of the first place with this text."""
    before = source[: source.index(shown)]
    return before.count("\n") + 1, len(before) - before.rfind("\n")


def reported(test, source):
    status, text, error = test.run(["lint"], source)
    test.expect(f"no error of {source!r}", (status, error), (0, ""))
    return [(int(line), int(column), kind) for line, column, kind in SHOWN.findall(text)]


def table(test):
    """Of each program with a mistake `lint` reports what is sure, and of the others nothing."""
    for about, text, warned in MISTAKES + [(about, text, {}) for about, text in SOUND]:
        source = lines_of(text)
        wanted = sorted((*place_of(source, shown), kind) for kind, shown in warned.items())
        test.expect(about, sorted(reported(test, source)), wanted)
        modelled = [(token.line, token.column, kind) for _, kind, token in warnings_of(source)]
        test.expect(f"{about}: the model", sorted(modelled), wanted)


# ---- code that never runs

ITEMS = (
    "dup drop over pop push a @ ! @b !b @+ a! b! + 2* unext . ; ex right left io 0 1 2 5 $1D5 $155 align".split()
    + ["jump L", "call L", "if L", "-if L", "next L", "jump warm", "jump right", "jump $155"] * 2
    + ["[ @p ]\n, L", "[ @p ]\n, $10003", "right b!", "right a!", "5 push", "end: jump end"]
)
COUNTED = re.compile(r"^\*? +(\d+|\.) .*?[0-9A-F]{3}  [0-9A-F]{5} +(\d+)  code")


def random_source(chance):
    """A node of random items with some labels, each on a line, and a neighbour that sends it random words."""
    labels = [f"l{n}" for n in range(chance.randint(1, 4))]
    lines = [chance.choice(ITEMS).replace("L", chance.choice(labels)) for _ in range(chance.randint(3, 16))]
    for label in [*labels, *["main"] * chance.randint(0, 1)]:
        lines.insert(chance.randint(0, len(lines)), f"{label}:")
    own = [it for number, it in enumerate(lines) if it != "end: jump end" or it not in lines[:number]]
    sent = [chance.choice(["$12000", "$10002", "$12004", "$04A12", f"{chance.randrange(1 << 18)}"]) for _ in range(3)]
    return "\n".join(["node 708", *own, ".", "node 709", "right b!", *(f"{it} !b" for it in sent), END, ""])


def never_runs(test):
    """No run comes to code of which `lint` says that it never runs, whatever words a neighbour sends."""
    chance = random.Random(1)
    seen = 0
    for _ in range(test.size(400, 4000)):
        source = random_source(chance)
        status, text, _ = test.run(["lint"], source)
        if status != 0:
            continue
        dead = [int(line) for line, _, kind in SHOWN.findall(text) if kind in ("UnusedLabel", "Unreachable")]
        if not dead:
            continue
        listing = test.run(["list", "--counts", "--turns", "400"], source)[1]
        words = [(int(found[2]), found[1]) for found in map(COUNTED.match, listing.splitlines()) if found]
        for line in dead:
            behind = min(it for it in words if it[0] >= line)
            test.expect(f"runs of line {line} of {source!r}", behind[1], ".")
            seen += 1
    test.holds("some code never runs", seen > 0)


if __name__ == "__main__":
    main(__doc__, table, never_runs)
