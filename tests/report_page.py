#!/usr/bin/env python3
"""Reads the pages that `report` writes, and tries some in a browser: python3 tests/report_page.py PROGRAM

A page is right if it is well-formed XML that needs no script and no other file, and
- its headline is the race that `race` finds, or the bottleneck of `profile`;
- it has the text of `profile`, and that of `list --counts`, node by node: the first line of a node is the summary of its other
  lines, which are folded if a node in front of it has the same words and entry, and the summary says which;
- beside these it has the text that was loaded, each line behind its number;
- each node that began has a row, whose parts fill its columns; they are as long as the profile has them, and as its title says;
- the turns below a timeline stand where they begin;
- the path of the run goes from one row to another, as tests/profiles.py finds it by the waveform of `trace`;
- the close-up shows what the timeline shows of its turns, and each word that nodes take in them by this waveform;
- each of the 144 nodes has a box, in its place, with what `profile` shows of it at the end, and its pending words, which
  are a list, too.

If chromium is there it shows some of them, in two widths and both colour schemes: no error may come on its console, and the
picture has the page's background and at least COLOURS colours. (A page with a script, and an empty one, show that this fails.)
In a wide picture the source is right of the listing. The last line that is printed is
'pages of report: N passed, M failed', a page or a picture each, and the exit status is 0 if M is 0.
"""
import os
import re
import shutil
import struct
import subprocess
import sys
import tempfile
import xml.etree.ElementTree as ET
import zlib
from collections import namedtuple
from concurrent.futures import ThreadPoolExecutor

from profiles import NODES, SHARE, STUCK, Move, before_on_path, share, states_of
from schedules import neighbours
from testing import drawn
from vcd import Waveform

ROOT = os.path.dirname(os.path.dirname(os.path.abspath(__file__)))
# Programs with the turns and the options of their pages. The last one boots, so its nodes begin in other turns.
EXAMPLES = [
    ("ring/ring.source", 400), ("fir/fir_pipelined.source", 1000), ("two_nodes/two_nodes.transcript", 200),
    ("send/send.source", 100), ("token_ring/token_ring.transcript", 300), ("ring/ring.source", 400, "--from", "900"),
    ("fir/fir_pipelined.source", 300, "--from", "20"), ("send/send.source", 300, "--from", "first", "--route", "708,709"),
]  # fmt: skip
WIDTHS, HEIGHT, COLOURS, SECONDS = [400, 1600], 700, 12, 120
# A page whose listing fills the lower half of a high picture. Right of it is the source, in these columns of a wide one.
LONG, HIGH, RIGHT = "fir/fir_pipelined.source", 6000, range(860, 1300, 4)
# What a node does: the class of its line, and the words.
KINDS = {
    "works": "works", "word": "waits for a word", "reader": "waits for its word to be read", "spins": "spins",
    "stopped": "stopped", "boots": "boots", "idle": "idle",
}  # fmt: skip
OF_NEED = {"own": "works", "take": "word", "post": "reader", "check": "reader", "stopped": "stopped", "input": "idle"}
KEY = [*KINDS.values(), "the path: what the run waits for", "\xd7 at a name: the node has stopped"]
CLOSE_UP = "Turns in the middle"
# What the close-up says of words, if it has their lines, and if there are too many.
MOST_LINES = 400
LINES = ["A thin line is a word, from its post to its take.", f"Nodes take more than {MOST_LINES} words, so none is drawn."]
LINE = re.compile(r"M(-?\d+) (\d+)\.5L(\d+) (\d+)\.5")
WORD = re.compile(r"(\d{3}) to (\d{3}): ([0-3][0-9A-F]{4}), turn (\d+) to turn (\d+)")
HEADINGS = ["Timeline", "Profile", "Chip at the end", "Listing", "Source"]
ROW = re.compile(rf"^(\d{{3}}) +({SHARE}) +({SHARE}) +({SHARE}) +{SHARE} \|(.{{24}})\|", re.M)
STUCK = r"Stuck, since no node reads its word:(?: \d{3})+\.\n"
# The need of a step at a port, by what a waveform shows of it.
NEEDS = {"posts": "post", "takes": "take", "sees": "check"}
BOTTLENECK = re.compile(rf"^(?:{STUCK})?Bottleneck: .*\n(?:If it worked .*\n)?(?:ring(?: \d{{3}})+\n)*", re.M)
TITLE = re.compile(r"(\d{3}) works in (\d+) turns, waits for a word in (\d+), and for a reader in (\d+)")
WINDOW = re.compile(r"(\d+) turns from turn (\d+) on\n")
ENDS = re.compile(r"\d{3} P [^\n]*")
# The first line of a node's listing with what a page adds, and the address and the word in a row of it.
SUMMARY = r"(node \d{3} entry [^\n]*\n)(?:\(the same program as (\d{3})\))?"
LISTED = re.compile(r"^[* ].*  ([0-3][0-9A-F]{2})  ([0-3][0-9A-F]{4}) +\d+  [a-z]", re.M)


class Wrong(Exception):
    """What is wrong with a page."""


def demand(holds, what):
    if not holds:
        raise Wrong(what)


# ---- The parts of a page.


class Page:
    """The parts of a page, by its text."""

    def __init__(self, text):
        demand(text.startswith("<!DOCTYPE html>\n"), "it isn't HTML")
        demand(not re.search("<script|https?:|url[(]|@import|<link|<img|src=", text), "it needs a script or a file")
        try:
            page = ET.fromstring(text)
        except ET.ParseError as error:
            raise Wrong(f"no XML: {error}") from None
        demand(len(page.findall("body/main/ul")) == 2, "other lists")
        self.title, self.headline = ("".join(page.find(path).itertext()) for path in ("head/title", "body/main/h1"))
        self.texts = [it.text for it in page.findall("body/main/pre")]
        columns = page.findall("body/main/div[@class='beside']/div")
        demand(len(columns) == 2, "no listing beside a source")
        self.listings = [listing_in(it) for it in columns[0].findall("details")]
        self.sources = [it.text for it in columns[1].findall("pre")]
        self.headings = [it.text for it in page.iter("h2")]
        main = [*page.find("body/main")]
        self.charts = charts_in(main)
        self.lines = words_in(page.findall("body/main/div[@class='over']/svg"), self.charts)
        notes = [it.text for it in main if it.tag == "p"][1:]
        self.notes, self.said = [it for it in notes if it not in LINES], [it for it in notes if it in LINES]
        self.key, self.pending = (["".join(item.itertext()) for item in it] for it in page.findall("body/main/ul"))
        self.boxes = [Box(it) for it in page.findall("body/main/div[@class='chip']/svg/g")]


class Box:
    """The box of a node: its name, where it is, what the node does, and its pending words, each with its reader."""

    def __init__(self, group):
        title, self.rect, *paths = [it for it in group if it.tag != "text"]
        self.name, self.words = title.text[:3], title.text[4:]
        self.label, self.place = group.find("text"), tuple(map(int, re.findall(r"\d+", group.get("transform", ""))))
        self.kinds = [it.get("class") for it in paths if it.get("class") != "arrow"]
        self.pending = [it.find("title").text for it in paths if it.get("class") == "arrow"]


# The listing of a node: its first line, the name of the node that is said to have the same program, the other lines, and
# whether these are shown.
Listing = namedtuple("Listing", "line same_as rows is_open")
# A row: its node, whether it has a cross, what the node does in each column, and whether it has the path, and the title's counts.
Row = namedtuple("Row", "name is_crossed columns path counts")
# A timeline: its rows, its turns, and how many of them a column has.
Chart = namedtuple("Chart", "rows ticks stride")
# A word that a node takes.
Taken = namedtuple("Taken", "poster reader word posted taken")


def listing_in(details):
    """The listing of a node."""
    demand([it.tag for it in details] == ["summary", "pre"] and not details.text, "other parts of a listing")
    found = re.fullmatch(SUMMARY, details[0].text)
    demand(found, f"another summary: {details[0].text!r}")
    return Listing(found[1], found[2], details[1].text, details.get("open") is not None)


def charts_in(main):
    """The timelines."""
    charts, rows = [], []
    for it in (inner for it in main for inner in (it if it.get("class") == "over" else [it])):
        if it.get("class") == "row":
            rows.append(row_in(it))
        elif it.get("class") == "scale":
            ticks = [int(span.text) for span in it]
            stride = max(1, -(-(ticks[-1] - ticks[0]) // 600))
            width = stride * -(-(ticks[-1] - ticks[0]) // stride)
            places = [f"left:calc(100%*{tick - ticks[0]}/{width})" for tick in ticks]
            demand([span.get("style") for span in it] == places, f"the turns {ticks} are elsewhere")
            charts.append(Chart(rows, ticks, stride))
            rows = []
    demand(not rows, "rows without a scale")
    return charts


def row_in(div):
    """A row of a timeline."""
    name, svg = [*div]
    zero, top, width, height = map(int, svg.get("viewBox").split())
    demand((zero, top, height) == (0, 0, 24), "another box of a row")
    columns, path = [None] * width, [None] * width
    for line in svg.findall("path"):
        parts = re.findall(r"M(\d+) (\d+)H(\d+)", line.get("d"))
        demand(parts and "".join("M{} {}H{}".format(*it) for it in parts) == line.get("d"), f"no line: {line.get('d')}")
        drawn = path if line.get("class") == "path" else columns
        for begin, _, end in parts:
            demand(drawn[int(begin) : int(end)] == [None] * (int(end) - int(begin)) != [], "parts overlap")
            drawn[int(begin) : int(end)] = [line.get("class")] * (int(end) - int(begin))
    demand({*columns} <= {*KINDS}, f"the row of {name.text} has a gap")
    found = TITLE.fullmatch(svg.find("title").text)
    demand(found and name.text in (found[1], f"{found[1]} \xd7"), f"the row of {name.text} has another name")
    return Row(found[1], name.text != found[1], columns, [*map(bool, path)], [*map(int, found.groups()[1:])])


def words_in(drawings, charts):
    """The words that the close-up has as lines, each in its place, or None without a drawing."""
    if not drawings:
        return None
    demand(len(drawings) == 1 and len(charts) == 2, "several drawings of words, or one without a close-up")
    rows, ticks, stride = charts[1]
    width = stride * -(-(ticks[-1] - ticks[0]) // stride)
    demand(drawings[0].get("viewBox") == f"-.5 0 {width} {len(rows)}", "another box of words")
    names, words = [row.name for row in rows], []
    for line in drawings[0]:
        title = WORD.fullmatch(line.find("title").text)
        demand(line.get("class") == "transfer" and title, "a line without a word")
        demand({title[1], title[2]} <= {*names}, f"{title[0]} has a node without a row")
        word = Taken(title[1], title[2], int(title[3], 16), int(title[4]), int(title[5]))
        ends = [word.posted - ticks[0], names.index(word.poster), word.taken - ticks[0], names.index(word.reader)]
        found = LINE.fullmatch(line.get("d"))
        demand(found and [*map(int, found.groups())] == ends, f"{word} is elsewhere")
        demand(word.posted <= word.taken < ticks[-1] and ticks[0] <= word.taken, f"{word} isn't in the close-up")
        words.append(word)
    return words


# ---- What a page shows.


def judge_timelines(page, profile):
    """Compares the timelines with the first line and the rows of the profile."""
    length, first = map(int, WINDOW.match(profile).groups())
    shown = ROW.findall(profile)
    for number, (rows, ticks, stride) in enumerate(page.charts):
        begin, turns = (first, length) if number == 0 else (ticks[0], ticks[-1] - ticks[0])
        demand([row.name for row in rows] == [it[0] for it in shown], "another node has a row")
        demand(all(len(row.columns) == -(-turns // stride) for row in rows), "a row has other columns")
        demand(ticks == [begin + turns * part // 4 for part in range(5)], f"another scale: {ticks}")
        demand(first <= begin and begin + turns <= first + length, "a timeline leaves the window")
        demand(page.notes[number : number + 1] == [note(stride)], "another note")
        demand(all(sum(some) <= 1 for some in zip(*(row.path for row in rows))), "several rows have the path")
        for row in rows:
            judge_row(row, turns, stride)
    judge_shares(page.charts, shown, length)
    if page.charts[0].stride == 1:
        judge_turns(page.charts, first)
    demand(page.said == [LINES[page.lines is None]] * (len(page.charts) - 1), f"another note on words: {page.said}")


def note(turns):
    if turns == 1:
        return "A column is a turn."
    return f"A column of {turns} turns shows what the node did in most of them."


def judge_row(row, turns, stride):
    """Compares the counts of a row with its columns."""
    counts = [row.columns.count(kind) for kind in ("works", "word", "reader")]
    demand(sum(row.counts) <= turns, f"{row.name} did more than there are turns")
    demand(row.is_crossed or "stopped" not in row.columns, f"{row.name} has stopped, and has no cross")
    if stride == 1:
        demand(row.counts == counts, f"the row of {row.name} has other counts: {counts}")
        demand(row.is_crossed == ("stopped" in row.columns), f"{row.name} has a cross")


def judge_shares(charts, shown, length):
    """Compares the counts of the rows with the shares of the profile; a close-up has no more."""
    for row, (name, *shares, bar) in zip(charts[0].rows, shown):
        demand([share(count, length) for count in row.counts] == shares, f"the row of {name} has other shares")
        demand(row.is_crossed or "x" not in bar, f"{name} has stopped, and has no cross")
    for chart in charts[1:]:
        for near, row in zip(chart.rows, charts[0].rows):
            demand(all(some <= whole for some, whole in zip(near.counts, row.counts)), f"the close-up of {near.name} has more")
            demand(row.is_crossed or not near.is_crossed, f"{near.name} has stopped in the close-up alone")


def judge_turns(charts, first):
    """Compares the close-up with the same turns of a window that has a column for each."""
    for rows, ticks, _ in charts[1:]:
        for near, whole in zip(rows, charts[0].rows):
            part = slice(ticks[0] - first, ticks[-1] - first)
            demand(near.columns == whole.columns[part], f"the close-up of {near.name} differs")


class Turns:
    """The steps of nodes by a waveform, also by node, need and side, and the words that nodes take, in order of the tries."""

    def __init__(self, wave):
        nodes = [*map(int, wave.nodes())]
        self.moves, self.ports, self.words, self.posts = {node: [] for node in nodes}, {}, [], {}
        # by turn, the nodes that spin in it
        self.spinning = []
        for turn, shown in enumerate(wave.turns()):
            self.spinning.append({node for node in nodes if shown[f"chip.n{node:03}.did"] == "spins"})
            for node in nodes:
                if shown[f"chip.n{node:03}.busy"]:
                    did, _, side = shown[f"chip.n{node:03}.did"].removesuffix("_read").partition("_")
                    self.step(node, turn, NEEDS.get(did), side, shown)

    def step(self, node, turn, need, side, shown):
        other = neighbours(node).get(side)
        awaited = {"take": (other, "post", side), "check": (other, "take", side)}.get(need)
        move = Move(turn, (turn, node), None, awaited)
        self.moves[node].append(move)
        self.ports.setdefault((node, need, side), []).append(move)
        if need == "post":
            self.posts[node, side] = shown[f"chip.n{node:03}.{side}_to_{other:03}"], turn
        if need == "take" and (other, side) in self.posts:
            self.words.append(Taken(f"{other:03}", f"{node:03}", *self.posts[other, side], turn))

    def path_before(self, node, end):
        """The turns and the nodes of the path to the last step of a node in front of a turn, the last one first."""
        move = max((it for it in self.moves[node] if it.turn < end), key=lambda it: it.order, default=None)
        while move is not None:
            yield move.turn, node
            node, move = before_on_path(self.moves, self.ports, node, move)


def judge_words(page, words):
    """Compares the lines of the close-up with the words that nodes take in its turns."""
    for rows, ticks, _ in page.charts[1:]:
        names = [row.name for row in rows]
        found = [it for it in words if ticks[0] <= it.taken < ticks[-1]]
        demand((page.lines is None) == (len(found) > MOST_LINES), f"nodes take {len(found)} words")
        drawn = [it for it in found if it.poster in names and it.reader in names]
        demand(page.lines is None or page.lines == drawn, f"other words: {page.lines[:3]} in place of {drawn[:3]}")


def judge_path(charts, turns):
    """Compares the path with that to the last step of the window that is no spin."""
    rows, ticks, _ = charts[0]
    spins = {int(row.name) for row in rows if row.columns[-1:] == ["spins"]}
    last = {node: max((it.order for it in moves if it.turn < ticks[-1]), default=(-1, 0)) for node, moves in turns.moves.items()}
    path = [*turns.path_before(max((node for node in last if node not in spins), key=last.get), ticks[-1])]
    for rows, ticks, stride in charts:
        holders, holder = {}, None
        for turn, node in reversed(path):
            if ticks[0] <= turn < ticks[-1]:
                holders[(turn - ticks[0]) // stride] = f"{node:03}"
        for column in range(-(-(ticks[-1] - ticks[0]) // stride)):
            holder = holders.get(column, holder)
            shown = [row.name for row in rows if row.path[column]]
            demand(shown == [holder] * (holder is not None), f"{shown} has the path in column {column}, not {holder}")


def judge_spins(page, turns):
    """Compares the boxes of nodes that spin with the first turn behind the window, if the run has made it."""
    end = page.charts[0][1][-1]
    shown = {int(box.name) for box in page.boxes if box.kinds[:1] == ["spins"]}
    demand(end >= len(turns.spinning) or shown == turns.spinning[end], f"{shown} spin, and not {turns.spinning[end:][:1]}")


def judge_chip(page, profile):
    """Compares the boxes with the end of the profile."""
    demand([it.name for it in page.boxes] == [f"{node:03}" for node in NODES], "a node has no box")
    (left, _), (_, high) = page.boxes[1].place, page.boxes[18].place
    low = page.boxes[0].place[1]
    demand(left > 36 and low - high > 32, "boxes overlap")
    demand(page.pending == [word for box in page.boxes for word in box.pending], "another list of pending words")
    bars = {name: bar for name, *_, bar in ROW.findall(profile)}
    ends = states_of(ENDS.findall(profile.partition("At the end:\n")[2]))
    for node, box in zip(NODES, page.boxes):
        row, column = divmod(node, 100)
        demand(box.place == (column * left, low - row * (low - high)), f"the box of {node:03} is elsewhere")
        sizes = [box.rect.get(it) for it in ("width", "height")] + [box.label.get(it) for it in ("x", "y")]
        demand(sizes == ["36", "32", "18", "21"] and box.label.text == box.name, f"another box of {node:03}")
        judge_box(node, box, bars.get(box.name), ends.get(node))


def judge_box(node, box, bar, end):
    kind = box.kinds[0] if box.kinds else "idle"
    demand(len(box.kinds) <= 1 and box.words == KINDS[kind], f"{node:03} has another mark than {box.words}")
    for pending in box.pending:
        found = re.fullmatch(rf"{node:03} to (\d{{3}}): [0-3][0-9A-F]{{4}}", pending)
        demand(found and int(found[1]) in neighbours(node).values(), f"no pending word: {pending}")
    wanted = "idle" if bar is None or end is None else OF_NEED[end.need]
    if wanted == "word" and end.place == "fetch":
        wanted = "idle"
    may_spin = end is not None and end.need == "own"
    demand(kind == wanted or may_spin and kind == "spins", f"{node:03} {KINDS[kind]} at the end, and not {wanted}")
    demand(kind == "spins" or bar is None or "~" not in bar, f"{node:03} doesn't spin at the end")


def headline_of(profile, verdict):
    """The headline by the texts of `profile` and of `race`."""
    race = re.match(r"race: (\d{3}) ", verdict)
    if race:
        return f"Race: the schedule decides which word {race[1]} takes."
    return BOTTLENECK.search(profile)[0]


def judge_listings(listings, text):
    """Compares the listings of nodes with the text of `list --counts`, and which of them have the same program."""
    demand("".join(it.line + it.rows for it in listings) == text, "another listing")
    programs = {}
    for it in listings:
        program = it.line.split()[3], *LISTED.findall(it.rows)
        same_as = programs.setdefault(program, it.line.split()[1])
        demand(it.same_as == (same_as if same_as != it.line.split()[1] else None), f"another program of {it.line.split()[1]}")
        demand(it.is_open == (it.same_as is None), f"{it.line.split()[1]} isn't folded, or is")


def numbered(source):
    """The lines of a source text, each behind its number, as a reader of XML has them."""
    lines = [line.removesuffix("\r") for line in source.removesuffix("\n").split("\n")] if source else []
    shown = "".join(f"{number}\t{line}\n" for number, line in enumerate(lines, 1))
    return drawn(re.sub("[\ufffe\uffff]", "\ufffd", shown))


def fault_of_page(text, source, profile, listing, verdict=None, wave=None):
    """What is wrong with a page of a run of a source text with these outputs of `profile`, `list --counts` and `race`, and this
    waveform, or None. Without one of `race` it may have any race, and without a waveform any words and path."""
    try:
        page = Page(text)
        demand(page.title == page.headline, "the title isn't the headline")
        if verdict is None:
            verdict = re.sub(r"Race: the schedule decides which word (\d{3}) takes\.", r"race: \1 ", page.headline)
        demand(page.headline == headline_of(profile, verdict), f"another headline: {page.headline!r}")
        demand([it for it in page.headings if it != CLOSE_UP] == HEADINGS, f"other headings: {page.headings}")
        demand(len(page.charts) == 1 + page.headings.count(CLOSE_UP), "a heading without a timeline")
        demand(page.key == KEY, f"another key: {page.key}")
        demand(page.texts == [profile], "another profile")
        judge_listings(page.listings, listing)
        demand(page.sources == [numbered(source) or None], "another source")
        judge_timelines(page, profile)
        judge_chip(page, profile)
        if wave is not None:
            turns = Turns(wave)
            judge_words(page, turns.words)
            judge_path(page.charts, turns)
            judge_spins(page, turns)
    except Wrong as fault:
        return f"page: {fault}"
    return None


# ---- Pictures of a page.


def rows_of(picture):
    """The rows of a picture in PNG, as bytes, with the bytes of a pixel."""
    parts, at, data = {}, 8, b""
    while at < len(picture):
        length, kind = struct.unpack(">I4s", picture[at : at + 8])
        parts[kind] = picture[at + 8 : at + 8 + length]
        data += parts[kind] if kind == b"IDAT" else b""
        at += 12 + length
    width, _, depth, colour, *_ = struct.unpack(">IIBBBBB", parts[b"IHDR"])
    size = {(8, 2): 3, (8, 6): 4}[depth, colour]
    data, length = zlib.decompress(data), width * size + 1
    rows, before = [], bytes(length - 1)
    for begin in range(0, len(data), length):
        before = unfiltered(data[begin], data[begin + 1 : begin + length], before, size)
        rows.append(before)
    return rows, size


def unfiltered(kind, row, above, size):
    """A row of PNG, by its filter and the row above."""
    if kind == 0:
        return row
    if kind == 2:
        return bytes((one + other) & 255 for one, other in zip(row, above))
    done, corner = bytearray(size) + row, bytes(size) + above
    for at in range(size, len(done)):
        left, up = done[at - size], corner[at]
        guess = left if kind == 1 else (left + up) // 2 if kind == 3 else nearest(left, up, corner[at - size])
        done[at] = (done[at] + guess) & 255
    return bytes(done[size:])


def nearest(left, up, corner):
    """The one of three that is nearest to left + up - corner."""
    return min((left, up, corner), key=lambda it: abs(left + up - corner - it))


def colours_of(picture):
    rows, size = rows_of(picture)
    return {row[at : at + 3] for row in rows for at in range(0, len(row), size)}, rows[0][:3]


def shown(folder, name, width, is_dark, height=HEIGHT):
    """The picture of a page, and what comes on the console."""
    image = f"{folder}/{name}-{width}-{is_dark}-{height}"
    command = [
        "chromium", "--headless", "--no-sandbox", "--disable-gpu", "--hide-scrollbars", "--enable-logging=stderr",
        f"--user-data-dir={image}.data", f"--window-size={width},{height}", f"--screenshot={image}.png",
        *["--force-dark-mode"] * is_dark, f"file://{folder}/{name}.html",
    ]  # fmt: skip
    ran = subprocess.run(command, capture_output=True, timeout=SECONDS, text=True, errors="replace")
    with open(f"{image}.png", "rb") as file:
        return file.read(), [line for line in ran.stderr.splitlines() if "CONSOLE" in line]


def fault_of_picture(folder, name, width, is_dark):
    """What is wrong with a picture of a page, or None."""
    try:
        picture, said = shown(folder, name, width, is_dark)
        colours, first = colours_of(picture)
    except (OSError, subprocess.SubprocessError, KeyError, struct.error, zlib.error) as error:
        return f"no picture: {error!r}"
    if said:
        return f"on the console: {said}"
    if (max(first) < 128) != is_dark:
        return f"the background is {first.hex()}"
    return f"only {len(colours)} colours" if len(colours) < COLOURS else None


def fault_of_columns(folder, name):
    """What is wrong with the listing and the source of a long page, or None."""
    rows, size = rows_of(shown(folder, name, WIDTHS[-1], False, HIGH)[0])
    page = rows[0][:size]
    written = sum(any(row[at * size : (at + 1) * size] != page for at in RIGHT) for row in rows[HIGH // 2 :])
    return None if written > 500 else f"beside the listing only {written} rows of the picture have a source"


# ---- The pages of some runs.


def output(program, *arguments):
    ran = subprocess.run([program, *arguments], stdin=subprocess.DEVNULL, capture_output=True, timeout=SECONDS)
    return ran.stdout.decode()


def made(program, folder, example):
    """Makes a page, and returns its name and what is wrong with it, or None."""
    file, turns, *start = example
    path, options = f"{ROOT}/examples/{file}", ["--turns", str(turns)]
    if "--route" in start:
        start, options = start[:2], options + start[2:]
    name = "-".join([file.replace("/", "-"), *start[1:]])
    text = output(program, "report", *start, *options, path)
    with open(f"{folder}/{name}.html", "w", encoding="utf-8") as page:
        page.write(text)
    shown = output(program, "profile", *start, *options, path), output(program, "list", "--counts", *options, path)
    verdict = output(program, "race", *options, path) if path.endswith(".source") else None
    with open(path, encoding="utf-8") as file:
        source = file.read()
    return name, fault_of_page(text, source, *shown, verdict, Waveform(output(program, "trace", *options, path)))


def undrawn(program, folder):
    """What is wrong with the page of a text with characters that no terminal draws, or None."""
    with open(f"{folder}/odd.source", "w", encoding="utf-8", newline="") as file:
        file.write("node 708 . \\ a\x1bb\u202ec\u200bd\x85e\rf\n")
    text = output(program, "report", f"{folder}/odd.source")
    is_right = "\\ a b c d e f\n" in text and not re.search("[\x1b\u202e\u200b\x85\r]", text)
    return None if is_right else "characters that aren't drawn are in it"


def tried_by_browser(folder, names, pool):
    """Yields each picture, and what is wrong with it."""
    for name, text in {"with-script": "<script>console.log(1)</script>", "empty": ""}.items():
        with open(f"{folder}/{name}.html", "w") as page:
            page.write(f"<!DOCTYPE html><html><body>{text}</body></html>")
        fault = fault_of_picture(folder, name, 400, False)
        wanted = "on the console" if text else "only"
        yield f"the page {name}", None if fault and fault.startswith(wanted) else f"is found right: {fault}"
    pictures = [(name, width, is_dark) for name in names for width in WIDTHS for is_dark in (False, True)]
    faults = pool.map(lambda it: fault_of_picture(folder, *it), pictures)
    for (name, width, is_dark), fault in zip(pictures, faults):
        yield f"{name} at {width} pixels{' in dark' * is_dark}", fault
    name = LONG.replace("/", "-")
    yield f"{name}: listing and source", fault_of_columns(folder, name)


def main(program):
    with tempfile.TemporaryDirectory(ignore_cleanup_errors=True) as folder, ThreadPoolExecutor(os.cpu_count()) as pool:
        results = [*pool.map(lambda it: made(program, folder, it), EXAMPLES)]
        if shutil.which("chromium"):
            results += tried_by_browser(folder, [name for name, _ in results], pool)
        else:
            print("skipped: needs chromium: pictures of pages")
        results.append(("undrawn", undrawn(program, folder)))
    failed = [f"FAILED {name}: {fault}\n" for name, fault in results if fault is not None]
    print("".join(failed), end="")
    print(f"pages of report: {len(results) - len(failed)} passed, {len(failed)} failed")
    return 1 if failed else 0


if __name__ == "__main__":
    if len(sys.argv) != 2:
        sys.exit(__doc__)
    sys.exit(main(os.path.abspath(sys.argv[1])))
