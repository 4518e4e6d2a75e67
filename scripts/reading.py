"""Reads the crates: the definitions of specs/ and the lemmas of proofs/, and which of them a text names."""
import glob
import os
import re
from dataclasses import dataclass, field

ROOT = os.path.dirname(os.path.dirname(os.path.abspath(__file__)))
NAME = r"[^\s(){}\[\],.:;]+"
USE = re.compile(r"use Rattle\.(\w+)\.((?:specs|proofs)(?:\.[\w.+]+?)?)(?:\.\{([^}]*)\}| as (\w+))")
HEAD = re.compile(rf"(?:abbrev |unfoldable )?(?:pub )?(?:(data|record) ({NAME}) |({NAME}) (?:{{[^}}]*}} )?:)")


@dataclass
class Declaration:
    """A definition or a lemma: the comment over it, its signature with what a type has, and all that it names."""

    comment: str
    signature: str
    names: set = field(default_factory=set)


def read(path):
    with open(path, encoding="utf-8") as file:
        return file.read()


def crates():
    """The crates, lowest first."""
    lines = read(f"{ROOT}/crates.txt").splitlines()
    return [line.split(":")[0].split()[0] for line in lines if line and line[0] != "#"]


def files(crate, folder, ending=".antt"):
    return sorted(glob.glob(f"{ROOT}/crates/{crate}/{folder}/**/*{ending}", recursive=True))


def module_of(crate, path):
    """The module that a file is, as specs.inner.Layout."""
    return os.path.relpath(path, f"{ROOT}/crates/{crate}")[: -len(".antt")].replace("/", ".")


def imports(text):
    """The names that a text imports, each with its meaning; and its aliases of modules."""
    names, aliases = {}, {}
    for crate, module, listed, alias in USE.findall(text):
        module = module if "." in module else f"{module}.Lib"
        if alias:
            aliases[alias] = (crate, module)
        for name in listed.split(","):
            name, _, other = name.strip().partition(" as ")
            if name:
                names[other or name] = (crate, module, name)
    return names, aliases


def mentions(text, names, aliases):
    """The definitions and lemmas that a text names."""
    for alias, name in re.findall(rf"(\w+)\.({NAME})", text):
        if alias in aliases:
            yield (*aliases[alias], name)
    for name in re.findall(rf"(?<![^\s(){{}}\[\],:;]){NAME}", text):
        if name in names:
            yield names[name]


def declarations(crate, path):
    """What a file declares, also in its modules without a name; and the constructors of its types."""
    module, text = module_of(crate, path), read(path)
    names, aliases = imports(re.sub(r"--.*", "", text))
    found, made_by, bodies = {}, {}, {}
    kind = current = None
    comment, column, in_signature = [], 0, False
    # What the modules around a declaration are given: it names all of that, too.
    given, is_given = "", False
    for line in text.splitlines():
        code = line.strip()
        if code.startswith("--"):
            comment.append(code)
            continue
        indent = len(line) - len(line.lstrip(" "))
        if code and indent < column:
            column, given = indent, given if indent else ""
        is_item = indent == column and not code.startswith("use ")
        if is_item and code.startswith("module "):
            column, current, is_given = column + 2, None, True
        if is_given:
            given, is_given = given + line + "\n", not code.endswith(" where")
        head = HEAD.match(code) if is_item else None
        if head:
            kind, current = head[1], (crate, module, head[2] or head[3])
            found[current] = Declaration("\n".join(comment), "")
            bodies[current], in_signature = given, True
        elif is_item and code and not kind:
            in_signature = False
        if current and not code.startswith("use "):
            bodies[current] += line + "\n"
            if in_signature and code:
                found[current].signature += line + "\n"
            constructor = re.match(rf"  ({NAME}) :", line)
            if kind == "data" and constructor:
                made_by[(crate, module, constructor[1])] = current
        comment = []
    here = {key[2]: key for key in [*found, *made_by]}
    for key, body in bodies.items():
        found[key].names = {made_by.get(name, name) for name in mentions(body, here | names, aliases)}
    return found, made_by


def reached(roots, names_of):
    """All that is named from some names on; `names_of` has what each names."""
    waiting, seen = list(roots), set()
    while waiting:
        name = waiting.pop()
        if name in names_of and name not in seen:
            seen.add(name)
            waiting += names_of[name]
    return seen
