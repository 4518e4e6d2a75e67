"""The text of a file with those that it includes. It shares nothing with the program.

`included` gives the lines of the text, each with the file and the line where it was written, or raises `IncludeFault` for the first
line that is at fault.
"""
import os
import re
from collections import namedtuple

LIMIT, MOST_FILES, MOST_OPEN = 1048576, 64, 16
MEANS = {
    "BadInclude": "an include needs the name of one file in quotation marks",
    "IncludeCycle": "a file that includes itself, directly or through others",
    "IncludeDepth": "files that include one another more than 16 deep",
    "IncludeCount": "a text of more than 64 files",
    "IncludeSize": "here the text gets longer than 1,048,576 bytes",
    "NoFile": "no file has this name",
    "Folder": "the name of a folder, not of a file",
    "NotAFile": "the name of something that isn't a regular file",
    "BadText": "a text that isn't UTF-8",
    "read": "the file can't be opened or read",
}
IS_INCLUDE = re.compile(r"[ \t\r]*include(?![^ \t\r])")
WHOLE_LINE = re.compile(r'[ \t\r]*include[ \t\r]+"([^"]+)"(?:[ \t\r]+(?:\\(?:[ \t\r].*)?)?)?', re.S)
# A line with its LF, if it has one, and where it was written.
Line = namedtuple("Line", "text file number")


class IncludeFault(Exception):
    """What is wrong with a line: the name of its file, its place there, what it is, and the text of that file."""

    def __init__(self, file, line, column, kind, text):
        super().__init__(f"{file}:{line}:{column} {kind}")
        self.file, self.line, self.column, self.kind, self.text = file, line, column, kind, text


def path_of(file, name):
    """What a name means in a file: it is relative to the file's folder, unless it begins with `/`."""
    return name if name.startswith("/") else file[: file.rfind("/") + 1] + name


class Reader:
    """Reads the files of a text, each once. `read` gives the bytes of one, or raises an OSError."""

    def __init__(self, name, text, read):
        self.name, self.texts, self.read = name, {name: text}, read
        self.lines, self.size = [], 0

    def add(self, line):
        self.size += len(line.text.encode())
        if self.size > LIMIT:
            raise IncludeFault(line.file, line.number, 1, "IncludeSize", self.texts[line.file])
        self.lines.append(line)

    def add_file(self, name, opened):
        """The lines of a file, inside some others."""
        *ended, last = self.texts[name].split("\n")
        for number, row in enumerate(ended, 1):
            self.add_row(name, number, row, "\n", opened)
        if opened == [name]:
            self.add_row(name, len(ended) + 1, last, "", opened)
        elif last or not ended:
            self.add_row(name, len(ended) + 1, last, "\n", opened)

    def add_row(self, name, number, row, end, opened):
        if not IS_INCLUDE.match(row):
            self.add(Line(row + end, name, number))
            return
        self.include(row, opened, lambda kind: IncludeFault(name, number, row.index("include") + 1, kind, self.texts[name]))
        if not end:
            self.add(Line("", name, number))

    def include(self, row, opened, fault):
        found = WHOLE_LINE.fullmatch(row)
        if not found:
            raise fault("BadInclude")
        path = path_of(opened[-1], found[1])
        if path in opened:
            raise fault("IncludeCycle")
        if path not in self.texts:
            if len(self.texts) == MOST_FILES:
                raise fault("IncludeCount")
            self.texts[path] = self.text_of(path, fault)
        if len(opened) == MOST_OPEN:
            raise fault("IncludeDepth")
        self.add_file(path, [*opened, path])

    def text_of(self, path, fault):
        try:
            data = self.read(path)
        except FileNotFoundError:
            raise fault("NoFile") from None
        except IsADirectoryError:
            raise fault("Folder") from None
        except NotRegular:
            raise fault("NotAFile") from None
        except (OSError, ValueError):
            raise fault("read") from None
        if len(data) > LIMIT:
            raise fault("IncludeSize")
        try:
            return data.decode()
        except UnicodeDecodeError:
            raise fault("BadText") from None


class NotRegular(OSError):
    """The name of a pipe or a device."""


def bytes_of(path):
    """The bytes of a regular file, or those up to the first one that is too many."""
    if not os.path.isdir(path) and os.path.exists(path) and not os.path.isfile(path):
        raise NotRegular
    with open(path, "rb") as file:
        return file.read(LIMIT + 1)


def has_includes(text):
    return any(map(IS_INCLUDE.match, text.split("\n")))


def included(name, text, read=bytes_of):
    """The lines of a text that is in the file with this name, with those of the files that it includes."""
    reader = Reader(name, text, read)
    reader.add_file(name, [name])
    return reader.lines


def whole(lines):
    return "".join(line.text for line in lines)
