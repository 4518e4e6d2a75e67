"""The forms of the replies to commands, and what `debug` shows of the same chip. No chip is run."""
import functools
import re

from assembler import NAME, NODE
from nearest import nearest
from operands import MOST_TURNS, OUTCOMES, STOPS, address_in, what_in
from schedules import PORTS, neighbours

WORD, P, NUMBER = "[0-3][0-9A-F]{4}", "[0-3][0-9A-F]{2}", "(?:0|[1-9][0-9]*)"
NINE_BITS, SIDE = "[01][0-9A-F]{2}", f"(?:{'|'.join(PORTS)})"
STOPPED = f"stopped (?:{STOPS})"
LOADER = "completion|transfer|count|body"
LABEL = f"(?: {NAME.pattern}(?:[+]{NUMBER})?)?"
STATE = (
    f"P {P} A {WORD} B {NINE_BITS} R {WORD} S {WORD} T {WORD} C [01] io {WORD} "
    f"at (?:fetch|slot[0-3]|{LOADER}) steps {NUMBER} need (?:own|take|post|check|input|{STOPPED})\n"
)
STACKS = f"ds(?: {WORD}){{8}}\nrs(?: {WORD}){{8}}\n"
MEMORY = "".join(f"{at:03X}(?: {WORD}){{8}}\n" for at in range(0, 64, 8))
LEDGER = f"written ({NUMBER}) read ({NUMBER}) pending ([01])\n"
WAITS = (
    f"{NODE.pattern} P {P}{LABEL} (?:fetch|slot[0-3] [^ ]+|{LOADER}) "
    f"(?:own|input|{STOPPED}|(?:take|post|check) {SIDE} of [^,]+)(?:, held)?(?:, stuck)?\n"
)
RING = f"ring(?: {NODE.pattern}){{2,}}\n"
IDLE = f"idle:(?: {NODE.pattern})+\n"
END = rf"{SIDE} of (?:{NODE.pattern}|nobody)"
# The picture of `map` and what stands below it.
MARK = r"(?: \. |\[[=~# ?!x]\])"
COLUMNS = " " + "".join(f"{column:4}" for column in range(18))
PICTURE = "".join(
    rf"{row}  (?:{MARK}[-<>X ]){{17}}(?: \.|\[[=~# ?!x]\])\n(?:   (?: [ |^vX]  )*? [|^vX]\n)?" for row in range(7, -1, -1)
)
LEGEND = (
    "[#] works  [?] waits for a word  [!] waits for its word to be read\n"
    "[ ] idle  [~] spins  [=] held  [x] stopped   .  not started\n"
    "- | words went here  > < v ^ a word is pending and goes this way  X two words\n"
)
DOING = f"(?:is held|works|is stopped|awaits its stream|(?:takes|posts|checks) {END}(?:/{END})*)"
POSITION = f"{NODE.pattern} at {P}{LABEL} {DOING}\n"
PENDING = f"pending {NODE.pattern} to {NODE.pattern} {WORD}  {POSITION}"
STUCK = f"stuck:(?: {NODE.pattern})+\n"
DEED = f"(?:  posts {SIDE} {WORD}|  takes (?:{SIDE}|input) {WORD}|  sees {SIDE} read)?"
CHANGES = (
    "".join(f"(?:  {name} {WORD})?" for name in "TSRA")
    + f"(?:  B {NINE_BITS})?(?:  C [01])?(?:  io {WORD})?(?:  0[0-3][0-9A-F] {WORD})*"
)
STEP = f"{NUMBER} {P}{LABEL}  [^ \n]+{DEED}{CHANGES}\n"
REST = f"(?:waits {END}(?:/{END})*|waits for its stream|works|held|{STOPPED})\n"
CODE = f"(?:[*] |  )(0[0-3][0-9A-F])  ({WORD})  (?:code    |follower|data    )  [^ \n][^\n]*\n"
REPLIES = {
    "clear": "ok\n",
    "pass": "(?:ok|refused NotHeld)\n",
    "try": f"(?:{OUTCOMES})\n",
    "turn": f"moved {NUMBER}\n",
    "until": f"(?:turns {NUMBER} moved {NUMBER}|not reached)\n",
    "where": f"(?:{WAITS})*(?:{RING})*",
    "nodes": f"(?:{WAITS})*(?:{IDLE})?(?:{RING})*",
    "map": f"{COLUMNS}\n{PICTURE}{re.escape(LEGEND)}(?:{PENDING})*(?:{RING})*(?:  {POSITION})*(?:{STUCK})?",
}
compiled = functools.lru_cache(maxsize=4096)(re.compile)


def has_form(text, forms):
    """Whether a text is made of these forms, one behind the other, and the words of each ledger add up."""
    at = 0
    for form in forms:
        found = compiled(form).match(text, at)
        if not found:
            return False
        at = found.end()
    counts = (map(int, found) for found in compiled(LEDGER).findall(text))
    return at == len(text) and all(written == read + pending for written, read, pending in counts)


def registers(node):
    return f"node {node:03} {STATE}"


def ledgers(node):
    return "".join(f"{node:03} {side} {LEDGER}" for side in PORTS if side in neighbours(node))


def form_of(text, command, images, breakpoints):
    """The form of the reply to a command, in parts. The command may change the set of breakpoints."""
    verb, operands, refusal = command
    if refusal:
        return [re.escape(f"refused {refusal}{hint_of(text, command, images)}\n")]
    if verb == "breaks":
        return [break_form(node, address, images) for node, address in sorted(breakpoints)]
    if verb == "break":
        breakpoints.add(tuple(operands))
        return ["ok\n" if may_begin_code(*operands, images) else "ok, but no instruction begins there\n"]
    if verb == "clear":
        breakpoints.discard(tuple(operands))
    return FORMS[verb](*operands) if verb in FORMS else [REPLIES[verb]]


def hint_of(text, command, images):
    """What a refusal says of a label."""
    _, operands, refusal = command
    words = text.split(" ")[2:]
    if refusal == "BadValue" and words[:1] == ["at"]:
        words = words[2:] if words[1:2] == ["="] else words[1:]
    if refusal not in ("BadAddress", "BadValue") or not words or operands[0] not in images:
        return ""
    labels = images[operands[0]].labels
    known = address_in(words[0], {}) if refusal == "BadAddress" else what_in(words[0], labels)
    label = words[0].partition("+")[0]
    near = nearest(label, labels) if known is None and label not in labels else None
    return f", the nearest label is {near}" if near else ""


def may_begin_code(node, address, images):
    """Whether an address reaches no follower and no data of the node's image."""
    words = images[node].words if node in images and address < 0x80 else []
    return address % 64 >= len(words) or words[address % 64].kind == "code"


def break_form(node, address, images):
    labels = images[node].labels if node in images else {}
    name = next((f" {name}" for name, at in labels.items() if at == address), "")
    return f"{node:03} {address:03X}{name}(?:, held)?\n"


def memory_form(node, words):
    """The form of all of memory, or of a number of words from an index on."""
    index, count = words
    end = min(index + count, 64)
    lines = (f"{at:03X}(?: {WORD}){{{min(end - at, 8)}}}\n" for at in range(index, end, 8))
    return ["".join(lines) if count else MEMORY]


def steps_form(node, count):
    """At most `count` steps, and the reason behind them if there are fewer."""
    fewer = f"(?:{STEP}){{0,{count - 1}}}{REST}" if count else ""
    return [f"(?:(?:{STEP}){{{count}}}(?!.)|{fewer})"]


def value_form(what):
    return {
        "P": P, "B": NINE_BITS, "C": "[01]", "steps": NUMBER, "written": NUMBER, "read": NUMBER, "at": NINE_BITS,
        "pending": f"(?:none|{WORD})", "stopped": f"(?:none|{STOPS})",
    }.get(what.of if what.kind == "register" else what.kind, WORD)  # fmt: skip


def watch_form(node, what, goal):
    value = value_form(what)
    new = goal[0] if goal else value
    change = f"(?:{STEP})?(?P<old>{value}) -> (?!(?P=old) ){new} after [1-9][0-9]* turns\n"
    return [f"(?:{change}|not reached, {REST})"]


def expect_form(node, what, values):
    shown = " ".join([value_form(what)] * len(values))
    return [f"(?:ok|expected {' '.join(values)}, is (?!{' '.join(values)}\n){shown})\n"]


def sides_form(node):
    ways = {1: "east", 100: "north", -1: "west", -100: "south"}
    others = [(side, neighbours(node)[side]) for side in PORTS if side in neighbours(node)]
    word = f"(?:none|{WORD})"
    lines = (f"{side} {it:03} {ways[it - node]}  from {node:03} {word}  from {it:03} {word}\n" for side, it in others)
    return ["".join(lines)]


def depth_form(node):
    """The most words on both stacks, and why they may not be those of the steps that the node has made."""
    passed = f"(?:, passed at {P}{LABEL})?\n"
    remark = f"(?:in the first {NUMBER} of {NUMBER} steps\n|in another schedule\n)?"
    return [f"data {NUMBER} of 10{passed}return {NUMBER} of 9{passed}{remark}"]


def code_form(node, index):
    """Twelve words, from the fourth before an index on, as far as memory reaches. Without one the index isn't known."""
    count = "1,12" if index is None else min(12, 64 - max(index - 4, 0))
    return [f"(?:(?:{NAME.pattern}:\n)*{CODE}){{{count}}}"]


def run_form(count):
    return [f"turns (?:{NUMBER} moved {NUMBER}, at rest|{count} moved {NUMBER})\n"]


FORMS = {
    "run": run_form,
    "code": code_form,
    "regs": lambda node: [registers(node)],
    "node": lambda node: [registers(node), STACKS],
    "mem": memory_form,
    "ports": lambda node: [ledgers(node)],
    "step": steps_form,
    "trace": steps_form,
    "watch": watch_form,
    "expect": expect_form,
    "sides": sides_form,
    "depth": depth_form,
}


def steps_are_numbered(reply):
    """Whether the steps of a reply have numbers that follow on each other."""
    numbers = [int(line.split()[0]) for line in reply if compiled(STEP).fullmatch(f"{line}\n")]
    return numbers == list(range(*numbers[:1], (numbers or [0])[0] + len(numbers)))


# ---- What other commands of transcripts show of the same chip: `watch` for `trace`, and `where` for `nodes`.


def other_words(it):
    """A command that does the same to the chip as that of an exchange, and shows about the same."""
    last = it.reply[-1] if it.reply else ""
    if it.command.verb == "trace" and not it.command.refusal and compiled(STEP).fullmatch(f"{last}\n"):
        return f"watch {it.command.operands[0]:03} steps = {last.split()[0]}"
    return "where" if it.command == ("nodes", [], None) else it.text


def agree_in_other_words(it, other):
    """Whether the replies to a command and to its other words agree."""
    if it.command.verb == "trace" and other.command.verb == "watch":
        return it.reply[-1:] == other.reply[:1]
    return it.reply == (nodes_of(other.reply) if it.command.verb == "nodes" else other.reply)


def nodes_of(lines):
    """The lines of `nodes`, from those of `where`: all idle nodes are in one line in front of the rings."""
    rings = [line for line in lines if line.startswith("ring ")]
    idle = [line[:3] for line in lines if is_idle(line)]
    busy = [line for line in lines if line not in rings and not is_idle(line)]
    return [*busy, *([f"idle: {' '.join(idle)}"] if idle else []), *rings]


def is_idle(line):
    """Whether a line of `where` is that of a node that waits at its idle address."""
    found = re.match(r"(\d)(\d\d) P (\w+) fetch (?!.*, held)", line)
    if not found:
        return False
    is_at_edge = found[1] in "07", found[2] in ("00", "17")
    return found[3] == {(1, 1): "195", (1, 0): "1B5", (0, 1): "185", (0, 0): "1A5"}[is_at_edge]


# ---- What `debug` shows of the same chip: commands of `debug`, each with the lines of its reply. A line that isn't known is None,
# or a pattern that is found in it.


def same_of_debug(it, breakpoints):
    """The commands of `debug` that do what an exchange does, or show the same. None, if they can't."""
    verb, operands, refusal = it.command
    if refusal or verb in ("breaks", "where", "nodes", "map", "depth"):
        return []
    if verb in ("break", "clear"):
        return change_of_breaks(verb, operands, breakpoints)
    if verb == "until":
        return until_of_debug(it.reply, *operands, breakpoints)
    return OF_DEBUG[verb](it.reply, *operands) if verb in OF_DEBUG else [(it.text, it.reply)]


def change_of_breaks(verb, place, breakpoints):
    (breakpoints.add if verb == "break" else breakpoints.discard)(tuple(place))
    return [(f"{verb} {place[0]:03} {place[1]:03X}", ["ok"])]


def until_of_debug(reply, node, address, passes, count, breakpoints):
    """Turns with the breakpoint; or, if it is passed, without."""
    found = re.fullmatch("turns ([0-9]+) (moved [0-9]+)", reply[0])
    if passes and not found:
        return None
    turns, moved = found.groups() if found else (count, None)
    front, behind = ("clear", "break") if passes else ("break", "clear")
    is_as_before = ((node, address) in breakpoints) != (passes > 0)
    place = f"{node:03} {address:03X}"
    lines = [(f"{front} {place}", ["ok"]), (f"turn {turns}", [moved]), (f"{behind} {place}", ["ok"])]
    return lines[:2] if is_as_before else lines


def run_of_debug(reply, count):
    turns, moved = re.match("turns ([0-9]+) (moved [0-9]+)", reply[0]).groups()
    return [(f"turn {turns}", [moved])]


def steps_of_debug(reply, node, count):
    for line in reply:
        if not compiled(STEP).fullmatch(f"{line}\n"):
            yield from ((f"try {node:03} {side}", [line.split()[0]]) for side in "rdlu")
            continue
        taken = re.search("  takes ([rdlu])(?:ight|own|eft|p) ", line)
        yield f"try {node:03} {taken[1] if taken else 'r'}", ["moved"]
        yield f"regs {node:03}", [changes_seen(line)]
        yield from memory_seen(node, {int(at, 16): word for at, word in re.findall(f"  (0[0-3][0-9A-F]) ({WORD})", line)})


def changes_seen(line):
    """A pattern of the node's line behind a step: its number, and the registers that it changed."""
    changed = re.findall("  (T|S|R|A|B|C|io) ([0-9A-F]+)", line)
    return compiled("".join(f"(?=.* {name} {value} )" for name, value in [*changed, ("steps", line.split()[0])]))


def watch_of_debug(reply, node, what, goal):
    found = re.fullmatch(f".* -> (.*) after ({NUMBER}) turns", reply[-1])
    if not found:
        return [(f"turn {MOST_TURNS}", [None])]
    return [(f"turn {found[2]}", [None]), *seen_in_debug(node, what, [found[1]])]


def expect_of_debug(reply, node, what, values):
    return seen_in_debug(node, what, values if reply == ["ok"] else reply[0].partition(", is ")[2].split(" "))


def seen_in_debug(node, what, values):
    """How `debug` shows that a node has these values."""
    if what.kind == "memory":
        return memory_seen(node, {(what.of + i) % 64: word for i, word in enumerate(values)})
    if what.kind in ("pending", "written", "read"):
        count = int(values[0] != "none") if what.kind == "pending" else values[0]
        pattern = compiled(f" {what.of} .*{what.kind} {count}(?: |$)")
        return [(f"ports {node:03}", [pattern if side == what.of else None for side in PORTS if side in neighbours(node)])]
    extended = f"{int(values[0], 16) + 0x200:03X}" if what.kind == "at" else None
    pattern = {
        "register": f" {what.of} {values[0]} ",
        "at": f" P (?:{values[0]}|{extended}) .* at (?:fetch|{LOADER})| at slot",
        "stopped": " need (?!stopped)" if values[0] == "none" else f" need stopped {values[0]}$",
    }[what.kind]
    return [(f"regs {node:03}", [compiled(pattern)])]


def memory_seen(node, words):
    """How `debug` shows words of memory, by their indices."""
    rows = ([words.get(8 * row + i, WORD) for i in range(8)] for row in range(8))
    return [(f"mem {node:03}", [compiled(f"^{8 * at:03X} {' '.join(row)}$") for at, row in enumerate(rows)])] if words else []


def memory_of_debug(reply, node, words):
    shown = [word for line in reply for word in line.split()[1:]]
    return memory_seen(node, {words[0] + i: word for i, word in enumerate(shown)})


def code_of_debug(reply, node, index):
    shown = (compiled(CODE).fullmatch(f"{line}\n") for line in reply)
    return memory_seen(node, {int(found[1], 16): found[2] for found in shown if found})


def sides_of_debug(reply, node):
    """The words that a node and its neighbours have posted, as counts of those pending."""
    lines = [line.split() for line in reply]
    own = [compiled(f" {line[0]} .*pending {int(line[5] != 'none')}$") for line in lines]
    yield f"ports {node:03}", own
    for side, other, *_, word in lines:
        pattern = compiled(f" {side} .*pending {int(word != 'none')}$")
        yield f"ports {other}", [pattern if it == side else None for it in PORTS if it in neighbours(int(other))]


OF_DEBUG = {
    "run": run_of_debug,
    "step": steps_of_debug,
    "trace": lambda reply, *operands: None,
    "watch": watch_of_debug,
    "expect": expect_of_debug,
    "mem": memory_of_debug,
    "sides": sides_of_debug,
    "code": code_of_debug,
    "node": lambda reply, node: [(f"regs {node:03}", reply[:1])],
}


def agrees(line, other):
    """Whether a line of `debug` is as expected."""
    return line is None or line == other or isinstance(line, re.Pattern) and line.search(other) is not None
