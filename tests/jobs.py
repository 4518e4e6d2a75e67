"""What each subcommand does with a FILE: one table, for files.py, faults_of_texts.py and includes.py.

line      the words of the command line in front of FILE
reads     `larger`: source text of the larger language; `source`: the same from FILE, but plain source text from
          standard input; `words`, `replay`, `transcript`: other texts, which include no file
session   `yes`: the text may be a session, too
errors    how errors of FILE are reported, with status 1. `all`: those of source text, at FILE:LINE:COLUMN; `json`: the
          same on standard output, as JSON; `expansion`: all, but only if the text has no expansion; `first`: the first
          alone; `bare`: without the name of FILE
input     how the first error of standard input is reported. `bare`: by its name; `shown`: with the line and what it
          means, too; `json`: all errors, as those of FILE
warnings  `only`: they are the output; `json`: as JSON; `deny`: with status 1; `behind`: they follow the output
"""
import functools
import os
import re
from collections import namedtuple

import answers
from answers import fault_report, meaning_of, report_json, report_text, shown_text
from assembler import Fault, images_of
from text_faults import faults_of, first_fault

TABLE = """
line                         reads       session  errors     input  warnings
asm                          source      -        all        bare   -
boot 708,709                 source      -        all        bare   -
run 708,709 1 5              source      -        all        bare   -
expand                       larger      -        expansion  shown  -
list                         source      -        all        shown  behind
list --labels                source      -        all        shown  -
list --counts --turns 50     source      yes      all        shown  -
lint                         larger      -        all        shown  only
lint --deny                  larger      -        all        shown  deny
lint --json                  larger      -        json       json   json
race --turns 50              source      yes      all        shown  -
race --witness --turns 50    source      yes      all        shown  -
race --place --turns 50      source      -        all        shown  -
map --turns 50               source      yes      all        shown  -
profile --turns 50           source      yes      all        shown  -
profile --json --turns 50    source      yes      all        shown  -
trace --turns 50             source      yes      all        shown  -
report --turns 50            source      yes      all        shown  -
debug                        source      yes      all        shown  -
debug --place                source      -        all        -      -
one 5                        words       -        first      bare   -
dis                          words       -        first      bare   -
replay                       replay      -        first      bare   -
check                        transcript  yes      bare       shown  -
record                       transcript  yes      bare       shown  -
"""


class Job(namedtuple("Job", TABLE.split("\n")[1].split())):
    """A row of the table."""

    def words(self, *more):
        """The words of its command line."""
        return [*self.line.split(), *more]

    def refusal(self, reports):
        """Its answer to a FILE with these errors."""
        if self.errors == "json":
            return 1, "".join(map(report_json, reports)), ""
        return 1, "", "".join(map(report_text, reports))

    def fault_of(self, text):
        """The first fault for which it refuses a text in FILE, or None."""
        fault = first_of(text)
        return fault if self.errors != "expansion" or fault and fault.text.startswith("expand") else None

    def answer(self, text, file):
        """Its answer to a text in a FILE, or None if the models don't know it."""
        if self.fault_of(text):
            return self.refusal(all_reports(text, file))
        if self.warnings == "-" and self.line not in MODELLED:
            return None
        asked = answers.Job(self.words("--", file))
        told = [] if self.warnings == "-" else answers.warning_reports(asked, text)
        told = "".join(map(report_json if self.warnings == "json" else report_text, told))
        if self.warnings in ("only", "json", "deny"):
            return int(self.warnings == "deny" and told != ""), told, ""
        try:
            output = answers.output_of_text(lambda *_: "", asked, text, None)
        except Fault as fault:
            return tuple(answers.refused(asked, fault, text))
        return 0, output + f"\n{told}" * (told != "" and file != "-"), ""

    def input_fault(self, text):
        """The first fault for which it refuses a text in standard input, or None."""
        return self.fault_of(text) if self.reads == "larger" else fault_from(images_of, text)

    def input_refusal(self, fault, text):
        """Its answer to a text in standard input with this fault at its place."""
        shown_line = shown_text(text, *fault.place) + meaning_of(fault.text.split()[-1], text) + "\n"
        return 1, "", f"ga-bench: {fault.text}\n" + shown_line * (self.input == "shown")


JOBS = [Job(*re.split("  +", row)) for row in TABLE.strip().split("\n")[1:]]
OF_SOURCE = [it for it in JOBS if it.reads in ("source", "larger")]
OF_ALL_ERRORS = [it for it in OF_SOURCE if it.errors in ("all", "json")]
OF_SESSIONS = [it for it in JOBS if it.session == "yes"]
# Those whose answer to a text without an error is known.
MODELLED = ["lint", "lint --deny", "lint --json", "list", "list --labels", "asm", "boot 708,709", "expand"]
LIMIT = 1048576
# Names of files with characters of all kinds, and those that no line can have, or no include.
NAMES = [
    "a b", " ", " a", "--", "-x", "--json", "ä→", "é", "😀", "tab\there", "esc\x1b[2J", "bell\x07", "back\x08space",
    "form\x0cfeed", "cr\r", "cr\rx", "\r", "del\x7f", "next\x85line", "ls\u2028", "rlo\u202ename", "%s{}",
    ":3:5: error", ":3:", "x" * 200, "it's", "back\\slash", "\\", "\\ x", "\\u0041", "a\\nb", "*", "~", "$HOME", "`x`",
    "<a&b>", "include", ".hidden", "...", "@b",
]  # fmt: skip
OTHER_NAMES = ["line\nfeed", 'say "hi"']


def job(line):
    """The row of a command line."""
    return next(it for it in JOBS if it.line == line)


def fault_from(model, *arguments, **more):
    """The fault with which a call ends, or None."""
    try:
        model(*arguments, **more)
    except Fault as fault:
        return fault
    return None


def shown(name):
    """A name as it is shown, without what a terminal would obey."""
    return re.sub("[\x00-\x08\x0a-\x1f\x7f-\x9f\u2028\u202e]", " ", name)


first_of = functools.lru_cache(maxsize=64)(first_fault)


@functools.lru_cache(maxsize=64)
def all_reports(text, file):
    """What is reported of all faults of a text in a file."""
    return reports_of(text, faults_of(text), file)


def reports_of(text, faults, file):
    """What is reported of faults of a text in a file."""
    return [fault_report(lambda line: (file, line), it, text) for it in faults]


def odd_files(test, folder=""):
    """Files that can't be read as a text, in a folder, with what is wrong with each."""
    os.makedirs(os.path.join(test.folder, folder, "dir"))
    test.write(f"{folder}long", b"\n" * (LIMIT + 1))
    test.write(f"{folder}bytes", b"node 709 \xff\n")
    return {"gone": "NoFile", "dir": "Folder", "long": "TooLong", "bytes": "BadText"}
