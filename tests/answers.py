"""Whether an answer of the program is right: `wrong` judges one, for tests/fuzz.py and tests/cut_texts.py. A subcommand
is a function here, under `@subcommand`. The other tests use the recorded cases of each of SUBCOMMANDS.

A text has one meaning or one first fault, and so have a command line and a command. This file computes them after
docs/FORMATS.md, with tests/assembler.py, expander.py, including.py, text_faults.py, hints.py, linter.py, outputs.py and
sessions.py, which share nothing with the program.
So all refusals are compared to the byte, and all outputs of `asm`, `expand`, `list`, `lint`, `dis` and `boot`. These files have no chip: the
output of a run must have its form, and must agree with other runs of the program.

| Of | The relation |
|---|---|
| `asm`, `list` | each has the words of the other |
| `list --counts` | `record` makes the same tries, one after the other. tests/counts.py works the text out from their replies |
| `dis` | `asm` makes the same words of its text, with the same length of code |
| `one` | after as many turns as it made steps, `debug` shows the same node |
| `run` by one worker | after the same tries, `record` shows the same nodes |
| `debug`, `record` | each has the replies of the other |
| `record` | `check` accepts its transcript, and `record` writes that again as it is |
| `check` | it compares with the replies of `record` |
| `race` | `debug` makes as many steps in its turns, and `check` accepts its witness |
| `trace` | `record` shows the same in the first turns, made by tries, and the same nodes behind `run` |
| `map` | `record` has it as the reply to `map` behind `run` |
| `profile` | `record` makes the same tries, one after the other. tests/profiles.py works text and JSON out from their replies |
| `report` | it has the texts of `profile` and `list --counts`, and the verdict of `race`. tests/report_page.py reads it |
| `replay` of profile 2 | it compares with the replies of `debug` |
| `replay` of profile 1 | it accepts the lines before one that differs, and refuses the last one changed |
"""
import glob
import itertools
import json
import os
import re
from collections import namedtuple

from assembler import Fault, images_of
from counts import counted_list, is_listing_of
from expander import expanded_text, expansion, written_fault, written_pieces
from hints import hint_of
from including import MEANS, IncludeFault, has_includes, included, whole
from linter import warnings_of
from operands import COMMANDS, IN_REPLAYS, command_of
from outputs import (
    asm_output, boot_output, dis_output, judge_reached, labels_output, list_output, routes_of, rows_of, tree_of,
)  # fmt: skip
from profiles import (
    LINES_HEAD, PROFILE, MayChange, Run, TooLong, has_code_of, profile_json, profile_of, profile_text, row_of_path, share,
    stuck_text,
)  # fmt: skip
from replies import STACKS, agree_in_other_words, agrees, has_form, ledgers, other_words, registers
from report_page import BOTTLENECK, fault_of_page
from sessions import Transcript, head_of, text_of
from testing import drawn
from text_faults import faults_of
from vcd import LONGEST_SPIN, NODES, Session, Waveform, Wrong, commands_of, compare, compare_end, demand

ROOT = os.path.dirname(os.path.dirname(os.path.abspath(__file__)))
LIMIT = 1048576
# A run is compared with one of at most this many turns, or tries.
MOST_TURNS, MOST_TRIES = 2000, 3000
# The profile and the counts of a run of at most this many turns are worked out.
MOST_PROFILED = 300
HELP = {"-h", "--help", "-V", "--version"}
# Those that read source text and no session.
SOURCES = {"asm", "boot", "run"}
# The subcommands that show the line of a fault.
SHOWING = {"expand", "list", "lint", "race", "map", "profile", "report", "trace", "check", "record"}
# The subcommands whose faults have no name of FILE.
NAMELESS = {"check", "record"}
# The subcommands whose FILE is no source text.
SOURCELESS = {"one", "dis", "replay", "explain", *NAMELESS}
# A fault at a place of source text: its node, the place, and its name.
PLACED = re.compile(r"(?:source|expand|asm (\d+)) (\d+:\d+) (\w+)")
# The status, the output, and the text on standard error; no status if no answer came in time.
Answer = namedtuple("Answer", "status output error")
# What is reported about a place of a file, whose name is as it was given. `shown` is the line, and a caret.
Report = namedtuple("Report", "file line column level name meaning node hint shown")


def recorded_cases():
    cases = []
    for file in sorted(glob.glob(f"{ROOT}/tests/cases/*.jsonl")):
        with open(file, encoding="utf-8") as lines:
            cases += map(json.loads, lines)
    return cases


def meanings():
    """What each name of a fault or a warning means, as the recorded cases of `expand`, `list`, `lint` and `check` show it."""
    kinds = (["expand"], ["list"], ["check"])
    shown = [case.get("stderr", "").splitlines() for case in CASES if case["args"][:1] in kinds]
    found = {lines[0].split()[-1]: lines[-1] for lines in shown if len(lines) > 2 and lines[0].startswith("ga-bench: ")}
    linted = "".join(case.get("stdout", "") for case in CASES if case["args"][:1] == ["lint"])
    return found | dict(re.findall(r"^\S.*?:\d+:\d+: warning: (\w+): (.*) \(node \d+\)$", linted, re.M))


CASES = recorded_cases()
# What faults of words mean, and those of lines of a replay text that no recorded case shows.
WORDS_MEAN = {
    "BadWord": "no word of five hex digits, at most 3FFFF",
    "Empty": "a text without a word",
    "TooLong": "the 65th word: a node has room for 64",
}
LINES_MEAN = {
    "BadCommand": "no command here, or words behind it are missing, wrong or left over",
    "BadAddress": "no address: three hex digits, at most 1FF",
    "BadSide": "no side: r, d, l or u",
    "BadCount": "no count: one to seven digits, at most 1000000",
    "NotHeld": "a node that isn't held at a breakpoint",
    "differs": "the result isn't the one that this line states",
}
MEANINGS = meanings()
# The recorded texts of `explain`, by the names behind it.
EXPLAINED = {tuple(it["args"][1:]): it["stdout"] for it in CASES if it["args"][:1] == ["explain"] and it["status"] == 0}


# The arguments of a subcommand: values, which are numbers of a range, and texts; and options, which have a number of a
# range, a text, or no value. FILE and NAME may be left out. `answer` gives the expected output.
Subcommand = namedtuple("Subcommand", "values options answer")
SUBCOMMANDS = {}


def subcommand(*values, **options):
    def add(answer):
        SUBCOMMANDS[answer.__name__.rstrip("_")] = Subcommand([*values], options, answer)
        return answer

    return add


class Job:
    """What a command line asks for. ValueError: it is wrong."""

    def __init__(self, args):
        self.args, (self.name, *rest) = args, args or [""]
        if self.name not in SUBCOMMANDS:
            raise ValueError("no such subcommand")
        self.kind = SUBCOMMANDS[self.name]
        self.options, self.values = {}, []
        # The lines of FILE with those of the files that it includes, if it includes any.
        self.lines = None
        # By its place in the expansion of FILE, each token as it was written, if FILE is of the larger language.
        self.written = {}
        while rest:
            word = rest.pop(0)
            option, equals, value = word.partition("=")
            option = option.removeprefix("--")
            if word == "--":
                self.values, rest = self.values + rest, []
            elif not word.startswith("-") or word == "-":
                self.values.append(word)
            elif word[:2] != "--" or option in self.options or option not in self.kind.options:
                raise ValueError("no such option, or it is given twice")
            elif self.kind.options[option]:
                if not equals and (not rest or re.match("-.", rest[0])):
                    raise ValueError("an option without its value")
                kind, text = self.kind.options[option], value if equals else rest.pop(0)
                if kind == "WHERE" and text not in ("last", "first"):
                    number_in(range(1000001), text)
                self.options[option] = text if isinstance(kind, str) else number_in(kind, text)
            elif equals:
                raise ValueError("an option with a value that has none")
            else:
                self.options[option] = True
        if {"place", "route"} <= {*self.options}:
            raise ValueError("source text is placed or booted")
        if self.name == "list":
            judge_list({*self.options})
        self.read_values(self.kind.values)

    def read_values(self, kinds):
        least = len(kinds) - ("FILE" in kinds or "NAME" in kinds)
        if not least <= len(self.values) <= len(kinds):
            raise ValueError("too few or too many values")
        pairs = zip(kinds, self.values)
        self.values = [number_in(kind, word) if isinstance(kind, range) else word for kind, word in pairs]
        if "NAME" in kinds and self.values and self.values[0] not in EXPLAINED[()].split():
            raise ValueError("no such name")

    def has_file(self):
        given = self.kind.values[-1:] == ["FILE"] and len(self.values) == len(self.kind.values)
        return given and self.values[-1] != "-"

    def lists_file(self):
        """Whether it writes the listing of FILE."""
        return self.name == "list" and self.has_file() and not self.options

    def writes_json(self):
        """Whether it reports each warning and each fault of source text as JSON."""
        return self.name == "lint" and "json" in self.options

    def named(self):
        """FILE as faults show it, or None."""
        return shown_name(self.values[-1]) if self.has_file() and self.name not in NAMELESS else None

    def file(self):
        """The file that is read in place of standard input, or None."""
        return self.values[-1] if self.has_file() and self.values[-1] != "/dev/stdin" else None

    def demand_file(self):
        if self.file() is not None and self.options.get("save") == self.file():
            raise ValueError("the save file would replace FILE")

    def lacks_file(self):
        """Whether FILE isn't there."""
        return self.file() is not None and not os.path.exists(self.file())

    def origin(self, line):
        """The name and the line of the file where a line of the text was written."""
        it = self.lines[line - 1] if self.lines else None
        return (it.file, it.number) if it else (self.values[-1] if self.has_file() else "-", line)

    def line_name(self, token):
        """What a listing shows of the line of a token: where it was written, with the name of a file that FILE includes."""
        file, line = self.origin(self.written.get((token.line, token.column), token).line)
        return f"{shown_name(file)}:{line}" if self.has_file() and file != self.values[-1] else line

    def input_of(self, data):
        """The text that is read, if standard input has this data: FILE with the files that it includes."""
        text = self.text_of(data)
        if not self.has_file() or self.name in SOURCELESS or text.startswith("profile") or not has_includes(text):
            return text
        self.lines = included(self.values[-1], text)
        return whole(self.lines)

    def text_of(self, data):
        if (file := self.file()) is not None:
            if os.path.isdir(file):
                raise Fault("input Folder")
            with open(file, "rb") as it:
                data = it.read()
        if len(data) > LIMIT:
            raise Fault("input TooLong")
        try:
            return data.decode()
        except UnicodeDecodeError:
            raise Fault("input BadText") from None


def judge_list(options):
    if {"labels", "counts"} <= options:
        raise ValueError("labels or counts")
    if "counts" not in options and options & {"turns", "place", "route"}:
        raise ValueError("only a list with counts makes turns")


def number_in(limits, word):
    if not re.fullmatch("[+]?[0-9]+", word) or int(word) not in limits:
        raise ValueError("no number in its range")
    return int(word)


def words_of(text):
    words = [word for word in re.split("[ \t\r\n]+", text) if word]
    for number, word in enumerate(words):
        if not re.fullmatch("[0-3][0-9A-Fa-f]{4}", word):
            raise Fault(f"words {number} BadWord")
    if not 0 < len(words) <= 64:
        raise Fault("words TooLong" if words else "words Empty")
    return [int(word, 16) for word in words]


def shown_name(name):
    return drawn(name.replace("\n", " "))


def meaning_of(name, text):
    if name != "BadProfile":
        return MEANINGS.get(name, "no recorded case shows what this means")
    beside = ""
    if text.startswith("\ufeff"):
        beside = ": a byte order mark stands in front of it"
    elif text.split("\n")[0].endswith("\r"):
        beside = ": a CR stands at its end"
    return f"the first line isn't 'profile 2'{beside}"


def shown_text(text, line, column):
    """The line of a text, and a caret under its column, if it has one."""
    rows = [*text.split("\n"), ""]
    row = rows[line - 1].removesuffix("\r" if line < len(rows) - 1 else "")
    begin = column - 41 if column and column > 80 else 0
    shown = f"  {drawn(row[begin : begin + 100])}\n"
    return shown + ("  " + re.sub("[^\t]", " ", row[begin : column - 1]) + "^\n" if column else "")


def report_text(it):
    """A report as compilers write it."""
    remark = f" (node {it.node})" if it.node else ""
    hint = f"; {shown_name(it.hint)}" if it.hint else ""
    place = f"{shown_name(it.file)}:{it.line}:{it.column}"
    return f"{place}: {it.level}: {it.name}: {it.meaning}{remark}{hint}\n{it.shown}"


def report_json(it):
    """A report as one object of JSON, on a line."""
    values = {name: value for name, value in it._asdict().items() if name != "shown"}
    return json.dumps(values, ensure_ascii=False, sort_keys=True, separators=(",", ":")) + "\n"


def fault_report(origin, fault, text):
    """What is reported of a fault at a place of source text, if `origin` gives the name and the line where a line was written. Of
    a session's source nothing more is known."""
    node, _, name = PLACED.fullmatch(fault.text).groups()
    (file, line), column = origin(fault.place[0]), fault.place[1]
    hint = None if text.startswith("profile") else hint_of(text, fault)
    return Report(file, line, column, "error", name, meaning_of(name, text), node, hint, shown_text(text, *fault.place))


def other_report(job, fault, text):
    """What is reported of a fault in FILE that is none of source text: of words, of a replay text or of the head of a session; or
    None."""
    kind, *words = fault.text.split()
    name = "differs" if words[:1] == ["differs"] else words[-1]
    if kind == "words" and name in WORDS_MEAN:
        index = {"BadWord": words[0], "Empty": 0, "TooLong": 64}[name]
        place, meaning = place_of_word(text, int(index)), WORDS_MEAN[name]
    elif kind in ("replay", "transcript"):
        numbers = [int(word) for word in words if word.isdecimal()]
        place, meaning = (*(numbers or fault.place)[:1], 1), LINES_MEAN.get(name) or meaning_of(name, text)
    else:
        return None
    (file, line), column = job.origin(place[0]), place[1]
    return Report(file, line, column, "error", name, meaning, fault.node, None, shown_text(text, *place))


def place_of_word(text, index):
    """The line and the column where the word with an index stands, or where the text ends."""
    starts = [it.start() for it in re.finditer("[^ \t\r\n]+", text)]
    front = text[: starts[index]] if index < len(starts) else text
    return front.count("\n") + 1, len(front.split("\n")[-1]) + 1


def message(origin, fault, text):
    return report_text(fault_report(origin, fault, text))


def include_report(fault):
    """What is reported of an include line that is refused."""
    shown = shown_text(fault.text, fault.line, fault.column)
    return Report(fault.file, fault.line, fault.column, "error", fault.kind, MEANS[fault.kind], None, None, shown)


def include_message(fault):
    return report_text(include_report(fault))


def refused_with(job, reports):
    """The answer of a job that these reports refuse."""
    return Answer(1, text_of_reports(job, reports), "") if job.writes_json() else Answer(1, "", text_of_reports(job, reports))


def text_of_reports(job, reports):
    return "".join(map(report_json if job.writes_json() else report_text, reports))


def refused(job, fault, text):
    """The expected answer of a job with a fault: the fault, and behind it what some subcommands show of the text. Of source text in
    FILE, and as JSON, all faults are reported. A fault that shows an expansion has no place in FILE."""
    placed, shown = PLACED.fullmatch(fault.text), fault.behind
    if placed and fault.place and (job.named() is not None or job.writes_json()):
        faults = [fault] if text.startswith("profile") else faults_of(text)
        return refused_with(job, [fault_report(job.origin, it, text) for it in faults])
    if job.named() is not None and fault.shows is None and (report := other_report(job, fault, text)):
        return refused_with(job, [report])
    if fault.place and job.name in SHOWING:
        shown = shown_text(text if fault.shows is None else fault.shows, *fault.place) + meaning_of(fault.text.split()[-1], text) + "\n"
    name = f"{job.named()}: " if job.named() is not None and fault.text.startswith("input ") else ""
    return Answer(1, "", f"ga-bench: {name}{fault.text}\n{shown}")


# The expected output of each subcommand for a text, or its Fault. What a chip does is taken from other runs: `ask` gives
# the output of one, or None if its input would be too long. What no other run shows is taken from the answer.


@subcommand("FILE")
def asm(ask, job, text, answer):
    images = images_of(text)
    ask(["list"], text, list_output(images))
    return asm_output(images)


@subcommand("FILE")
def expand(ask, job, text, answer):
    """The text of the expansion. If it has a program, it expands to itself."""
    source = expanded_text(expansion(text))
    try:
        images_of(source)
    except Fault:
        return source
    ask(["expand"], source, source)
    return source


@subcommand("FILE", labels=None, counts=None, turns=range(1000001), place=None, route="ROUTE")
def list_(ask, job, text, answer):
    if "counts" in job.options:
        return counted(ask, job, text, answer)
    images = images_of(text)
    ask(["asm"], text, asm_output(images))
    return labels_output(images) if job.options else list_output(images, job.line_name)


@subcommand("FILE", deny=None, json=None)
def lint(ask, job, text, answer):
    return text_of_reports(job, warning_reports(job, text))


def warning_reports(job, text):
    """What is reported of the warnings about the expansion, at the places where their tokens were written."""
    pieces = [*expansion(text)]
    plain = expanded_text(pieces)
    try:
        found = warnings_of(plain)
    except Fault as fault:
        raise written_fault(fault, text, plain, pieces) from None
    written = written_pieces(plain, pieces)
    return [warning_report(job, text, node, kind, written[token.line, token.column]) for node, kind, token in found]


def warning_report(job, text, node, kind, at):
    meaning = MEANINGS.get(kind, "no recorded case shows what this means")
    file, line = job.origin(at.line)
    return Report(file, line, at.column, "warning", kind, meaning, f"{node:03}", None, shown_text(text, at.line, at.column))


@subcommand("FILE", code=range(65))
def dis(ask, job, text, answer):
    words = words_of(text)
    code = job.options.get("code", len(words))
    if code > len(words):
        raise Fault("words BadCode")
    source = dis_output(words, code)
    ask(["asm"], source, f"node 000 entry 000 code {code} words {len(words)}\n{rows_of(words)}")
    return source


@subcommand("ROUTE", "FILE")
def boot(ask, job, text, answer):
    return boot_output(*tree_and_images(job.values[0], text))


def tree_and_images(route, text):
    images = images_of(text)
    parents = tree_of(routes_of(route))
    judge_reached(parents, images)
    return parents, images


@subcommand(range(1000001), "FILE")
def one(ask, job, text, answer):
    words = words_of(text)
    must_have_form(answer, [registers(0)])
    steps, need = re.search("steps ([0-9]+) need ([a-z]+)", answer.output).groups()
    steps, tries = int(steps), job.values[0]
    if steps > tries or steps < tries and need == "own" or need in ("check", "input"):
        raise Wrong("no node alone has these steps and this need")
    if steps > MOST_TURNS:
        return answer.output
    session = f"profile 2\nplace\n{dis_output(words, len(words))}go\nturn {steps}\nregs 000\n"
    return ask(["debug"], session).partition("\n")[2]


@subcommand("ROUTE", range(1, 145), range(1000001), "FILE")
def run(ask, job, text, answer):
    route, workers, turns = job.values[:3]
    parents, _ = tree_and_images(route, text)
    if workers > len(parents):
        raise Fault(f"plan Empty {len(parents)}")
    must_have_form(answer, [form for node in parents for form in (registers(node), STACKS, ledgers(node))])
    if workers > 1 or turns * len(parents) > MOST_TRIES:
        return answer.output
    source = re.sub("^go$", " go", text, flags=re.M)
    tries = [f"> try {node:03} {'rdlu'[turn % 4]}" for turn in range(turns) for node in parents]
    views = [f"> {view} {node:03}" for node in parents for view in ("node", "ports")]
    session = ask(["record"], f"profile 2\nroute {route}\n{source}\ngo\n{text_of(tries + views)}")
    if session is None:
        return answer.output
    return "".join(text_of(it.reply) for it in transcript_of(session).exchanges[len(tries) :])


@subcommand()
def debug(ask, job, text, answer):
    head = head_of(text)
    lines = [line for line in head.lines if line]
    refusals = [command_of(line, COMMANDS).refusal for line in lines]
    good = [f"> {line}" for line, refusal in zip(lines, refusals) if not refusal]
    session = ask(["record"], head.text + text_of(good))
    if session is None:
        return answer.output
    replies = (text_of(it.reply) for it in transcript_of(session).exchanges)
    wanted = [f"refused {refusal}\n" if refusal else next(replies, "") for refusal in refusals]
    return "".join("ok\n" if reply.startswith("ok, ") else reply for reply in wanted)


@subcommand("FILE")
def record(ask, job, text, answer):
    old, new = Transcript(text), transcript_of(answer.output)
    if failed := unmet(answer.output):
        ask(["check"], answer.output, "", f"ga-bench: check: {failed}\n{first_unmet(answer.output)}")
    else:
        ask(["check"], answer.output, f"same {len(old.exchanges)}\n")
    ask(["record"], answer.output, answer.output)
    judge_by_debug(ask, in_other_words(ask, new))
    return old.with_replies([it.reply for it in new.exchanges])


def unmet_lines(text):
    """The numbers of the lines behind `go` that are replies to expectations which aren't met."""
    lines = text.split("\n")
    head = lines.index("go") + 1 if "go" in lines else len(lines)
    return [number for number, line in enumerate(lines, 1) if number > head and line.startswith("expected ")]


def unmet(text):
    """What is reported of them, or nothing."""
    numbers = unmet_lines(text)
    if len(numbers) == 1:
        return f"1 expectation failed, in line {numbers[0]}"
    return f"{len(numbers)} expectations failed, the first in line {numbers[0]}" if numbers else ""


def first_unmet(text):
    """The first of them, as it is shown."""
    return f"{drawn(text.splitlines()[unmet_lines(text)[0] - 1])}\n"


def in_other_words(ask, transcript):
    """The transcript in other words, if it has them, after the replies are compared."""
    commands = [other_words(it) for it in transcript.exchanges]
    if commands == [it.text for it in transcript.exchanges]:
        return transcript
    output = ask(["record"], transcript.head.text + text_of(commands, "> "))
    if output is None:
        return transcript
    other = transcript_of(output)
    if not all(map(agree_in_other_words, transcript.exchanges, other.exchanges)):
        raise Wrong("other words have other replies")
    return other


def judge_by_debug(ask, transcript):
    """Compares the replies of a transcript with those of `debug`."""
    commands = list(transcript.as_debug())
    replies = ask(["debug"], transcript.head.text + text_of(command for command, _ in commands))
    if replies is not None:
        wanted, came = [line for _, reply in commands for line in reply], replies.splitlines()
        if len(came) != len(wanted) or not all(map(agrees, wanted, came)):
            raise Wrong("debug has other replies")


@subcommand("FILE")
def check(ask, job, text, answer):
    old, new = Transcript(text), transcript_of(ask(["record"], text))
    for one, other in zip(old.exchanges, new.exchanges):
        if one.reply != other.reply:
            differing = text_of(one.reply, "-") + text_of(other.reply, "+")
            raise Fault(f"check differs {one.line}", behind=drawn(differing))
    if failed := unmet(text):
        raise Fault(f"check: {failed}", behind=first_unmet(text))
    return f"same {len(old.exchanges)}\n"


RACE = (
    r"race: \d{3}(?: in its loader| at [0-3][0-9A-F]{2}(?: \S+)?) reads 1[0-9A-F]{2}(?: \(line \d+\))?; the schedule decides "
    r"which word it takes\n"
    r"(?:  (?:right|down |left |up   ) [0-3][0-9A-F]{4} from \d{3}"
    r"(?: in its loader| at [0-3][0-9A-F]{2}(?: \S+)?(?: \(line \d+\))?)?\n){2}"
)
COUNTS = r"(\d+) turns?, (\d+) steps?, \d+ multiport reads?"
NO_RACE = "no race(?:{}|{}|{})\n".format(
    rf": no schedule leads elsewhere\n  at rest after {COUNTS}(?:; spinning:(?: \d{{3}})+)?",
    rf" in 2 rounds of \d+ turns\n  all is as before a round after {COUNTS}",
    rf" so far: still moving after {COUNTS}",
)


@subcommand("FILE", turns=range(1000001), witness=None, place=None, route="ROUTE")
def race(ask, job, text, answer):
    head = head_in(job, text)
    found = re.fullmatch(NO_RACE, answer.output)
    if found:
        turns, steps = next(it for it in zip(found.groups()[::2], found.groups()[1::2]) if it[0])
        ask(["debug"], f"{head}turn {turns}\n", f"moved {steps}\n")
    elif "witness" not in job.options and not re.fullmatch(RACE, answer.output):
        raise Wrong("no text of a verdict")
    else:
        judge_witness(ask, job, text, answer)
    return answer.output


def judge_witness(ask, job, text, answer):
    """Judges the witness of a race: the answer, or that of the same command line with `--witness`."""
    if "witness" in job.options and answer.error == "ga-bench: output TooLong\n":
        raise Fault("output TooLong")
    witness = answer.output if "witness" in job.options else ask([*job.args, "--witness"], text, error=None)
    if witness:
        ask(["check"], witness, f"same {len(transcript_of(witness).exchanges)}\n")


def is_session(job, text):
    return not {"place", "route"} & {*job.options} and text.startswith("profile")


def head_in(job, text):
    """The head of a session, or that which loads a source text."""
    if is_session(job, text):
        return head_of(text, shows_source=True).text
    if "route" in job.options:
        tree_and_images(job.options["route"], text)
        line = f"route {job.options['route']}"
    else:
        images_of(text)
        line = "place"
    source = re.sub("^go$", " go", text, flags=re.M)
    return f"profile 2\n{line}\n{source}\ngo\n"


def session_in(job, text):
    """The head, and the commands of a session behind it."""
    head = head_in(job, text)
    return head, [it.text for it in Transcript(text).exchanges] if is_session(job, text) else []


def run_of(ask, job, text):
    """The turns until rest, behind the commands of a session."""

    def replies_to(head, commands):
        session = ask(["record"], head + text_of(commands, "> "))
        return None if session is None else [it.reply for it in transcript_of(session).exchanges]

    return Run(replies_to, *session_in(job, text), job.options.get("turns", 1000000))


# A line of a replay text behind `go`, with its number and its command.
Step = namedtuple("Step", "line text command")


@subcommand("FILE", turns=range(1000001), place=None, route="ROUTE")
def map_(ask, job, text, answer):
    """The reply to `map` after turns until rest, behind the commands of a session."""
    head, commands = session_in(job, text)
    turns = job.options.get("turns", 1000000)
    session = ask(["record"], head + text_of([*commands, f"run {turns}", "map"], "> "))
    return answer.output if session is None else text_of(transcript_of(session).exchanges[-1].reply)


@subcommand("FILE", turns=range(1000001), place=None, route="ROUTE", json=None, **{"from": "WHERE"})
def profile(ask, job, text, answer):
    """What each node did in turns until rest, by the tries of a run. If the run has many turns, or isn't worked out, the text must
    have its form, and the JSON must be that of the text."""
    has_numbers = "json" in job.options
    try:
        run = run_of(ask, job, text)
        if run.turns <= MOST_PROFILED:
            found = profile_of(run, job.options.get("from", "last"))
            return profile_json(found) if has_numbers else profile_text(found)
    except (TooLong, MayChange):
        pass
    if has_numbers:
        demand(answer.status == 0, "no JSON")
        judge_numbers(answer.output, ask(["profile", *without(job, "json")], text))
    else:
        must_have_form(answer, PROFILE)
        images = head_of(head_in(job, text)).images
        demand(all(has_code_of(it, images) for it in rows_of_path(answer.output)), "other code where the path goes")
    return answer.output


def rows_of_path(shown):
    """The rows of the table in a profile that shows where the path goes."""
    return [*itertools.takewhile(lambda it: it.startswith(" "), shown.split(LINES_HEAD)[1].splitlines())]


def without(job, name):
    """The arguments of a job without an option."""
    options = [f"--{it}" + f"={value}" * (value is not True) for it, value in job.options.items() if it != name]
    return [*options, "--", *job.values]


def judge_numbers(output, shown):
    """Compares a profile as JSON with its text: the window, the nodes with their words and passes, where the path goes, and the
    bottleneck with the nodes that are stuck."""
    try:
        found = json.loads(output)
        end, first = found["window"]["end"], found["window"]["first"]
        names = [it["name"] for it in found["nodes"]]
        numbers = [[*it["words"].values(), *(it["pass"] or {"turns": ".", "works": "."}).values()] for it in found["nodes"]]
        lines = [(share(it["path"], max(end - first, 0)), it["name"], it["word"] or ".") for it in found["lines"]]
        bottleneck, stuck = found["bottleneck"], found["stuck"]
    except (ValueError, KeyError, TypeError, AttributeError) as error:
        raise Wrong(f"no JSON of a profile: {error!r}") from None
    rows = [it.split() for it in re.findall(r"^\d{3} [^|\n]*\|[^|]{24}\|.*", shown, re.M)]
    demand(shown.startswith(f"{max(end - first, 0)} turns from turn {first} on\n"), "another window")
    demand(names == [row[0] for row in rows], "other nodes")
    demand([[*map(str, it)] for it in numbers] == [row[-4:] for row in rows], "other words or passes")
    rows = [row_of_path(it) for it in rows_of_path(shown)]
    demand(all(rows) and have_rows(lines, rows), "other lines")
    demand(bottleneck == BOTTLENECK.search(shown)[0], "another bottleneck")
    is_stuck = bottleneck.startswith(stuck_text(map(int, stuck)) + "Bottleneck: ")
    demand(is_stuck or "\nring " in bottleneck, "other nodes are stuck")


def have_rows(lines, rows):
    """Whether these rows of the table of the path can be those of these lines, of which there are at most ten. A line has a row
    of its own, with its share, or it is in a row of several with at least that share; or ten rows have at least as much."""
    shares = [percent(it["share"]) for it in rows]

    def has_row(part, name, word):
        at_word = [it for it in rows if it["word"].strip() == word]
        own = [it["share"] for it in at_word if it["node"] == name and not it["others"]]
        several = [percent(it["share"]) for it in at_word if it["others"]]
        return own == [part] if own else percent(part) <= max([*several, min(shares) if len(rows) == 10 else -1])

    return len(rows) <= 10 and all(has_row(*line) for line in lines)


def percent(part):
    """A share as a number; one below 1 is between 0 and 1."""
    return 0.5 if part == "<1" else int(part.replace(".", "0"))


def counted(ask, job, text, answer):
    """How often each word was fetched in turns until rest. Of a run of many turns it must be the listing, with any counts."""
    head = head_in(job, text)
    images = head_of(head).images if is_session(job, text) else images_of(text)
    try:
        run = run_of(ask, job, text)
        if run.turns <= MOST_PROFILED:
            return counted_list(images, run.look())
    except TooLong:
        pass
    if answer.status != 0 or not is_listing_of(answer.output, images):
        raise Wrong("no listing of this text with counts")
    return answer.output


@subcommand("FILE", turns=range(1000001), place=None, route="ROUTE", **{"from": "WHERE"})
def report(ask, job, text, answer):
    """A page with the texts of `profile` and `list --counts`. Its headline is the race that `race` finds, or the bottleneck."""
    _, commands = session_in(job, text)
    options = without(job, "from")
    shown, listing = ask(["profile", *job.args[1:]], text), ask(["list", "--counts", *options], text)
    # race does no commands, so behind some it says nothing of the page
    verdict = ask(["race", *options], text, error=None) if not commands else None
    demand(answer.status == 0, "no page")
    if fault := fault_of_page(answer.output, text, shown, listing, verdict):
        raise Wrong(fault)
    return answer.output


@subcommand("FILE")
def replay(ask, job, text, answer):
    head = head_of(text, ["profile 2", "profile 1"], shows_source=job.named() is not None)
    steps = [Step(line, it, command_of(it, IN_REPLAYS)) for line, it in enumerate(head.lines, head.go + 1) if it]
    good = list(itertools.takewhile(lambda it: not it.command.refusal, steps))
    if head.text.startswith("profile 2\n"):
        judge_outcomes(ask, head, good)
    else:
        judge_old(ask, text, good, answer)
    if len(good) < len(steps):
        raise Fault(f"replay line {steps[len(good)].line} {steps[len(good)].command.refusal}")
    return f"same {count_of(good)}\n"


def count_of(steps):
    """How many of these lines state an outcome."""
    return sum(it.command.verb in ("try", "turn") for it in steps)


def judge_outcomes(ask, head, steps):
    """Compares what the lines state with the replies of `debug`."""
    session = head.text + text_of(it.text.partition(" = ")[0] for it in steps)
    for it, reply in zip(steps, ask(["debug"], session[:-1]).splitlines()):
        if reply == "refused NotHeld":
            raise Fault(f"replay line {it.line} NotHeld")
        if it.command.verb in ("try", "turn") and str(it.command.operands[-1]) != reply.removeprefix("moved "):
            raise Fault(f"replay differs {it.line}")


def judge_old(ask, text, steps, answer):
    """Judges a text of profile 1, whose chip `debug` doesn't have. A line counts as different if the lines before it
    are right, and all lines count as right if another outcome of the last one differs."""
    lines = text.split("\n")
    line, name = refused_line(answer.error)
    for at, it in enumerate(steps):
        if it.line == line and it.command.verb in (("try", "turn") if name == "differs" else ("pass",)):
            ask(["replay"], text_of(lines[: it.line - 1]), f"same {count_of(steps[:at])}\n")
            raise Fault(f"replay differs {line}" if name == "differs" else f"replay line {line} {name}")
    last = next((it for it in reversed(steps) if count_of([it])), None)
    if last and answer.status == 0:
        outcome = last.command.operands[-1]
        other = int(outcome == 0) if last.command.verb == "turn" else "waits" if outcome == "moved" else "moved"
        front = [*lines[: last.line - 1], f"{last.text.partition(' = ')[0]} = {other}"]
        ask(["replay"], text_of(front), error=f"ga-bench: replay differs {last.line}\n")


def refused_line(error):
    """The line of a replay text that was refused since its outcome differs, or since a node isn't held, and which of them."""
    if found := re.fullmatch("ga-bench: replay (?:differs ([0-9]+)|line ([0-9]+) NotHeld)\n", error):
        return (int(found[1]), "differs") if found[1] else (int(found[2]), "NotHeld")
    found = re.match("[^\n]*:([0-9]+):1: error: (differs|NotHeld): ", error)
    return (int(found[1]), found[2]) if found else (None, None)


@subcommand("FILE", nodes="LIST", save="SAVE", turns=range(1000001), place=None, route="ROUTE")
def trace(ask, job, text, answer):
    """A waveform of turns until rest, behind the commands of a session."""
    head, commands = session_in(job, text)
    images = head_of(head).images
    nodes = [f"{node:03}" for node in sorted(images)]
    if "nodes" in job.options:
        nodes = sorted({*job.options["nodes"].split(",")})
    if not {*nodes} <= {*NODES}:
        raise Fault("route BadRoute")
    wave = Waveform(answer.output)
    demand(wave.nodes() == nodes, "it shows other nodes")
    if os.path.isfile(job.options.get("save", "")):
        with open(job.options["save"], encoding="utf-8") as file:
            saved = re.findall(r"^-(\d{3})$", file.read(), re.M)
        demand(saved == nodes, f"the save file shows {saved}")
    front = head + text_of(commands, "> ")
    shown = [f"{view} {node}" for node in nodes for view in ("regs", "sides")]
    session = ask(["record"], front + text_of([f"run {job.options.get('turns', 1000000)}", *shown], "> "))
    if session is None:
        return answer.output
    run, *replies = [it.reply for it in transcript_of(session).exchanges[len(commands) :]]
    demand(run[0].startswith(f"turns {wave.end} "), f"it has {wave.end} turns, and there are other: {run[0]}")
    compare_end(wave, nodes, replies)
    turns = min(wave.end, MOST_TRIES // len(NODES))
    session = ask(["record"], front + text_of(commands_of(nodes, turns + LONGEST_SPIN), "> "))
    if session is not None:
        replies = [it.reply for it in transcript_of(session).exchanges[len(commands) :]]
        compare(wave, Session(replies, images, nodes), turns)
    return answer.output


@subcommand("NAME")
def explain(ask, job, text, answer):
    if tuple(job.values) in EXPLAINED:
        return EXPLAINED[tuple(job.values)]
    must_have_form(answer, [f"{job.values[0]}: (?:.{{0,80}}\n)+"])
    return answer.output


def must_have_form(answer, forms):
    if answer.status != 0 or not has_form(answer.output, forms):
        raise Wrong("no output of the right form")


def transcript_of(output):
    """The transcript that `record` wrote, if each reply has its form."""
    try:
        transcript = Transcript(output)
    except Fault as fault:
        raise Wrong(f"record wrote a text with the fault {fault}") from None
    if not transcript.has_forms():
        raise Wrong("a reply of record has a wrong form")
    return transcript


def output_of(ask, job, text, answer):
    """The expected output. Behind the listing of a FILE are an empty line and the warnings about it, if there are any."""
    output = output_of_text(ask, job, text, answer)
    warnings = text_of_reports(job, warning_reports(job, text)) if job.lists_file() else ""
    return f"{output}\n{warnings}" if warnings else output


def output_of_text(ask, job, text, answer):
    """The same without warnings. The text of a FILE with a fault of source text is read in the larger language, unless it begins as
    a session, and the job takes one."""
    try:
        return job.kind.answer(ask, job, text, answer)
    except Fault as fault:
        is_plain = job.name == "lint" or not job.has_file() or text.startswith("profile") and job.name not in SOURCES
        if is_plain or not re.match("(source|asm) ", fault.text):
            raise
    pieces = [*expansion(text)]
    plain = expanded_text(pieces)
    job.written = written_pieces(plain, pieces)
    try:
        return job.kind.answer(ask, job, plain, answer)
    except Fault as fault:
        raise written_fault(fault, text, plain, pieces) from None


def judge(ask, args, data, answer):
    if HELP & {*args} and answer.status == 0 and answer.output and not answer.error:
        return
    if args[:1] == ["debug"] and len(args) == 2 and os.path.isdir(args[1]):
        if answer != Answer(1, "", f"ga-bench: {drawn(args[1])}: input Folder\n"):
            raise Wrong("expected input Folder")
        return
    try:
        job, text = Job(args), ""
        job.demand_file()
    except ValueError:
        if answer.status != 2 or answer.output or not answer.error:
            raise Wrong("expected status 2") from None
        return
    if job.lacks_file():
        if answer != Answer(2, "", f"ga-bench: {shown_name(job.file())}: input NoFile\n"):
            raise Wrong("expected input NoFile")
        return
    try:
        text = job.input_of(data) if job.name != "explain" else ""
        output = output_of(ask, job, text, answer)
        wanted = Answer(status_of(job, output), output, error_of(job, output))
    except IncludeFault as fault:
        wanted = refused_with(job, [include_report(fault)])
    except Fault as fault:
        wanted = refused(job, fault, text)
    if answer != wanted:
        raise Wrong(f"expected {shortened(wanted)}")


def error_of(job, output):
    failed = unmet(output) if job.name == "record" else ""
    return f"ga-bench: {failed}\n" if failed else ""


def status_of(job, output):
    if job.name == "record":
        return int(unmet(output) != "")
    if job.name == "lint":
        return int("deny" in job.options and output != "")
    return int(job.name == "race" and not output.startswith("no race"))


def shortened(answer):
    return " ".join(it if len(it) < 300 else f"{it[:200]} .. {it[-80:]}" for it in map(repr, answer))


def wrong(runner, args, data):
    """What is wrong with the answer to an input, or None."""

    def ask(args, text, output=None, error=""):
        if len(text.encode()) > LIMIT:
            return None
        other = runner.answer(args, text.encode())
        if args == ["record"] and error == "" and (failed := unmet(other.output)):
            error = f"ga-bench: {failed}\n"
        is_as_asked = error is None or (other.status, other.error) == (int(error != ""), error)
        if not is_as_asked or output not in (None, other.output):
            raise Wrong(f"{args} with {text[:300]!r} gave {shortened(other)}")
        return other.output

    answer = runner.answer(args, data)
    try:
        if answer.status is None:
            raise Wrong("no answer in time")
        judge(ask, args, data, answer)
    except Wrong as fault:
        return f"{fault}; came {shortened(answer)}"
    return None
