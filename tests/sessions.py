"""Sessions as docs/FORMATS.md has them: heads and transcripts, with tests/operands.py and tests/replies.py. No chip is run."""
from collections import namedtuple

from assembler import Fault, images_of
from operands import IN_TRANSCRIPTS, command_of
from outputs import ROUTES, judge_reached, routes_of, tree_of
from replies import form_of, has_form, same_of_debug, steps_are_numbered

# The images of its nodes, its text up to the line `go`, the number of that line, and the lines behind it.
Head = namedtuple("Head", "images text go lines")
# A command of a transcript: its line, its text, the lines of the reply, and the comments and empty lines behind it.
Exchange = namedtuple("Exchange", "line text command reply others")


def text_of(lines, mark=""):
    return "".join(f"{mark}{line}\n" for line in lines)


def head_of(text, profiles=("profile 2",), shows_source=False):
    """The head of a session. A fault of the source is `replay Source` or `replay Asm`, unless the source is shown."""
    lines = text.split("\n")
    if lines[0] not in profiles:
        raise Fault("replay BadProfile", (1, None))
    place, _, routes = [*lines, ""][1].partition(" ")
    if lines[1:2] != ["place"] and not (place == "route" and ROUTES.fullmatch(routes)):
        raise Fault("replay BadRoute", (2, None))
    if "go" not in lines[2:]:
        raise Fault("replay NoGo", (len(lines) - text.endswith("\n"), None))
    go = lines.index("go", 2)
    try:
        images = images_of(text_of(lines[2:go]), 3)
        if place == "route":
            judge_reached(tree_of(routes_of(routes)), images)
    except Fault as fault:
        kind = fault.text.split()[0]
        if shows_source and kind in ("source", "asm"):
            raise in_front_of_go(fault, lines, go) from None
        node = fault.text.split()[-1] if kind == "boot" else None
        raise Fault(f"replay {kind.capitalize()}", (2, None), node=node) from None
    return Head(images, text_of(lines[: go + 1]), go + 1, lines[go + 1 :])


def in_front_of_go(fault, lines, go):
    """The fault, if it is at the end of the source lines, behind the last of them; else as it is."""
    if fault.place != (go + 1, 1) or go == 2:
        return fault
    place = go, len(lines[go - 1].removesuffix("\r")) + 1
    return Fault(f"source {place[0]}:{place[1]} {fault.text.split()[-1]}", place)



class Transcript:
    """A transcript, cut into the exchanges of its commands."""

    def __init__(self, text):
        self.head = head_of(text, shows_source=True)
        self.front, self.exchanges = [], []
        for number, line in enumerate(self.head.lines, self.head.go + 1):
            if line.startswith("> "):
                command = command_of(line[2:], IN_TRANSCRIPTS, self.head.images)
                self.exchanges.append(Exchange(number, line[2:], command, [], []))
            elif line == "" or line.startswith("\\ "):
                (self.exchanges[-1].others if self.exchanges else self.front).append(line)
            elif self.exchanges:
                self.exchanges[-1].reply.append(line)
            else:
                raise Fault(f"transcript line {number} EarlyReply", (number, None))

    def with_replies(self, replies):
        """The text of this transcript with other replies."""
        lines = list(self.front)
        for it, reply in zip(self.exchanges, replies):
            lines += [f"> {it.text}", *reply, *it.others]
        return self.head.text + "\n".join(lines) if self.head.lines else self.head.text[:-1]

    def has_forms(self):
        """Whether each reply has the form that its command gives it."""
        breakpoints = set()
        forms = [form_of(it.text, it.command, self.head.images, breakpoints) for it in self.exchanges]
        pairs = zip(self.exchanges, forms)
        return all(has_form(text_of(it.reply), form) and steps_are_numbered(it.reply) for it, form in pairs)

    def as_debug(self):
        """The commands as `debug` has them, each with the lines of its reply, up to the first one that it can't do."""
        breakpoints = set()
        for it in self.exchanges:
            commands = same_of_debug(it, breakpoints)
            if commands is None:
                return
            yield from commands
