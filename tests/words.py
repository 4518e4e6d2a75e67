#!/usr/bin/env python3
"""Looks for words and phrases that the project doesn't use: tests/words.py [FILE..]

PHRASES has each with what to write instead. They are looked for in

- the pages: README.md, docs/*.md and the READMEs of the crates, outside blocks and code spans;
- the help and the texts of `explain`, outside examples and quotes;
- the comments of the crates (src, specs, proofs), of the tests and of the scripts, outside quotes.

EXCEPTIONS has the places where a phrase is right, each with its reason. Each file is one check. The last line that is
printed is 'N passed, M failed'. With files as arguments only these are read, and no exception has to be used.
"""
import glob
import os
import re
import sys

ROOT = os.path.dirname(os.path.dirname(os.path.abspath(__file__)))

# What is looked for, and what to write. A HEAD of a sentence is at the start of a text, or behind a stop or colon.
HEAD = r"(?:^|(?<=[.:?!)] )|(?<=\| )|(?<=\*\* ))"
MULTIPORT = r"\b(?:reads?|reading|fetch|fetches|takes?|takers?|taking|took)\b"
PHRASES = [
    (HEAD + r"Where\b(?=[^.?]*,)(?![^.]*\?)", "If X, Y; or Y, unless X"),
    (r"\b[Tt](?:old|ells)\b", "reported, reports; or shows, returns, names"),
    (r"\b[Mm]end(?:s|ed|ing)?\b", "fix, fixed"),
    (r"\bwants? of memory\b|\bfor want of\b", "out of memory"),
    (r"\b(?:pages?|files?|README|manual) (?:say|says|said|state|states|stated|tells?)\b", "documents, shows"),
    (r"\b(?:is|are|was|were|been|be) lent\b", "the arguments, the borrowed values"),
    (r"\b(?:a|each|every|any|this|its|some|no|longer|shorter) fronts? of\b|\bfronts\b", "a prefix of"),
    (r"\bdealt\b", "assigned in turn, round robin"),
    (r"\bbegun\b", "started"),
    (MULTIPORT + r" (?:of|at|from) several (?:ports|sides|neighbours)\b", "multiport read"),
    (MULTIPORT + r"[^.;|]{0,30}\bseveral (?:ports|sides) at once\b", "multiport read"),
    (r"\b(?:go|goes|went|gone|going|ran|run) alike\b", "agree on their common steps"),
    (r"\bas far as (?:both|they|these|those|either|each) (?:go|goes|went|reach)\b", "agree on their common steps"),
    (r"\b[Pp]rices?\b", "cost, time"),
    (r"\b[Mm]ostly\b|\bas it was found\b", "a measured number"),
    (r"\b(?:[Ww]hat|[Aa]ll that|[Nn]othing|[Ss]omething) (?:comes|came|is to come) of\b", "the result of"),
    (r"\b[Ss]o many\b", "N, this many, the number of"),
    (r"\b[Tt]he one\b(?! (?:that|of|at|in|on|with|which|behind|before|for)\b)[^.;|]{1,80}\bthe other\b", "name both"),
    (r"\b(?:holds|hold|held) of\b", "holds for, is true of"),
    (r"\b(?:is|are|was|were) said of\b|\bwhat is said\b", "name what it is"),
    (r"\bstands (?:on its own|in its own|there|here|so)\b|\bas it stands\b", "is"),
]
# A file or a pattern of files, a text that is allowed there, and why.
EXCEPTIONS = [
    ("docs/GLOSSARY.md", "a read or fetch at several ports", "the meaning of multiport read"),
    ("crates/ga_expand/specs/Expression.antt", "Where no operand is there, one begins", "a place in a text, and no condition"),
    ("crates/ga_counts/specs/Heat.antt", "Where a word goes that has nothing but a jump", "an address, and no condition"),
    ("crates/ga_counts/src/heat.rt", "Where a word at an address goes that has nothing but a jump", "an address, and no condition"),
    ("crates/ga_command_line/src/argument.rt", "Where it begins: with the last node that begins", "a turn, and no condition"),
    ("crates/ga_node/proofs/Spun.antt", "at most so many steps", "a bound, which the next line names"),
]


def block(lines):
    """Joins numbered lines into one text. Returns it with the offset at which each line begins."""
    text, starts = "", []
    for number, line in lines:
        starts.append((len(text), number))
        text += line.strip() + " "
    return text, starts


def without_quotes(text):
    """Puts lines in place of code spans and quotes, so that offsets stay."""
    return re.sub(r"``.*?``|`[^`]*`|\"[^\"]*\"|(?<!\w)'[^']*'(?!\w)", lambda match: "_" * len(match[0]), text)


def paragraphs(numbered):
    """Cuts numbered lines at empty ones and at items, headings and rows."""
    found = []
    for number, line in numbered:
        if not line.strip():
            found.append([])
            continue
        if not found or re.match(r"\s*(?:[-*#|>]|\d+\.) ?", line):
            found.append([])
        found[-1].append((number, line))
    return [lines for lines in found if lines]


def of_page(text):
    """The paragraphs of a page, without its blocks."""
    kept, fenced = [], False
    for number, line in enumerate(text.splitlines(), 1):
        if line.startswith("```"):
            fenced = not fenced
        is_text = not fenced and not line.startswith(("    ", "```"))
        kept.append((number, line if is_text else ""))
    return paragraphs(kept)


def of_comments(text, mark):
    """The comments of a text, a run of lines each."""
    kept = []
    for number, line in enumerate(text.splitlines(), 1):
        match = re.match(rf"\s*{mark}[/!]? ?(.*)$", line)
        kept.append((number, match[1] if match else ""))
    return paragraphs(kept)


def of_python(text):
    """The comments and docstrings of a Python file."""
    kept, quoted = [], False
    for number, line in enumerate(text.splitlines(), 1):
        stripped = line.strip()
        begins = not quoted and re.match(r'[rf]?"""', stripped)
        is_text = quoted or begins
        if begins:
            quoted = True
            stripped = stripped[stripped.index('"""') + 3 :]
        if quoted and '"""' in stripped:
            quoted = False
            stripped = stripped[: stripped.index('"""')]
        comment = re.match(r"# ?(.*)$", stripped)
        kept.append((number, stripped if is_text else comment[1] if comment else ""))
    return paragraphs(kept)


def of_strings(text):
    """The lines of the texts of help or of `explain`, without the examples, and the comments."""
    kept, long = [], False
    for number, line in enumerate(text.splitlines(), 1):
        if long:
            kept.append((number, "" if line.startswith("  ") or line.startswith("Example:") else line.strip('";')))
            long = not line.endswith('";')
        else:
            long = line.endswith('"\\')
            strings = " ".join(re.findall(r'"((?:[^"\\]|\\.)*)"', line)) if not long and "fn " not in line else ""
            match = re.match(r"\s*//[/!]? ?(.*)$", line)
            kept.append((number, match[1] if match else strings if " " in strings else ""))
    return paragraphs(kept)


def texts_of(file, text):
    if file.endswith(".md"):
        return of_page(text)
    if file.endswith(".antt"):
        return of_comments(text, "--")
    if re.match(r"crates/(?:ga_command_line|ga_explain)/src/", file):
        return of_strings(text)
    if file.endswith((".rt", ".c")):
        return of_comments(text, "//")
    if file.endswith(".py") or text.startswith("#!/usr/bin/env python3"):
        return of_python(text)
    return of_comments(text, "#")


def files():
    patterns = [
        "README.md", "docs/*.md", "crates/*/README.md", "crates/*/src/**/*.rt", "crates/*/specs/**/*.antt",
        "crates/*/proofs/**/*.antt", "tests/*.py", "tests/*.c", "tests/*.sh", "tests/try_*", "scripts/*", "test", "ga-bench",
    ]  # fmt: skip
    found = {path for pattern in patterns for path in glob.glob(f"{ROOT}/{pattern}", recursive=True)}
    names = {os.path.relpath(path, ROOT) for path in found if os.path.isfile(path)}
    return sorted(names - {"tests/words.py"})


def allowed(file, text, match, used):
    """Whether a match is part of a text that is an exception in this file."""
    for number, (pattern, right, _) in enumerate(EXCEPTIONS):
        if glob.fnmatch.fnmatch(file, pattern):
            for place in re.finditer(re.escape(right), text):
                if place.start() <= match.start() and match.end() <= place.end():
                    used.add(number)
                    return True
    return False


def hits(file, used):
    """Yields the line, the words and what to write instead, for each phrase in a file."""
    with open(f"{ROOT}/{file}", encoding="utf-8") as opened:
        text = opened.read()
    for lines in texts_of(file, text):
        joined, starts = block(lines)
        plain = without_quotes(joined)
        begin = re.match(r"(?:[-*#>|]+|\d+\.)? *", plain).end()
        for phrase, better in PHRASES:
            for match in re.compile(phrase).finditer(plain[begin:]):
                at = match.start() + begin
                if not allowed(file, plain[begin:], match, used):
                    number = [line for start, line in starts if start <= at][-1]
                    yield number, match[0], better


def main(names):
    used, failed = set(), []
    checked = names or files()
    for file in checked:
        found = sorted(hits(file, used))
        for number, words, better in found:
            print(f"FAILED {file}:{number}: {words!r}: {better}")
        failed += [file] if found else []
    unused = [right for number, (_, right, _) in enumerate(EXCEPTIONS) if number not in used] if not names else []
    for right in unused:
        print(f"FAILED EXCEPTIONS: {right!r} isn't found any more")
    print(f"words: {len(checked) - len(failed)} passed, {len(failed) + len(unused)} failed")
    return 1 if failed or unused or not checked else 0


if __name__ == "__main__":
    sys.exit(main(sys.argv[1:]))
