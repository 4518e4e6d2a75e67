"""Expands texts of the larger language, after "Larger source text" in docs/FORMATS.md. It shares nothing with the program.

`expansion` gives the tokens of the plain text, each with the place where it was written, or raises the first `Fault`.
"""
import re
from collections import namedtuple

from assembler import LEAPS, NAME, NODE, NUMBER, NUMBERS, RESERVED, Fault
from schedules import PORTS, neighbours, side_to

Piece = namedtuple("Piece", "text line column")
# How many parameters it has, and its tokens, each with its number if it is one of them.
Body = namedtuple("Body", "arity parts")
# The value of a constant, or of a part of an expression: is_ports says whether it is written as the address of ports.
Operand = namedtuple("Operand", "number is_ports")
WORDS = {"const", "body", "end", "use", "include", "to", "north", "east", "south", "west"}
# Words that are no argument of a `use`.
DELIMITERS = {"node", "const", "body", "end", "use", "include"}
SIDES = re.compile(r"(right|down|left|up)(\|(right|down|left|up))+")
NAMES_OF_PORTS = {"right", "down", "left", "up", "rdlu"}
# By its address, which sides a port or several ports have.
PORTS_BY_ADDRESS = {0x155 ^ bits << 4: bits for bits in range(1, 16)}
MOST_TOKENS, MOST_BYTES, MOST_BODIES, MOST_PARAMETERS = 262144, 64, 256, 64


def fault_at(piece, name):
    return Fault(f"expand {piece.line}:{piece.column} {name}", (piece.line, piece.column))


def pieces_of(text):
    """The tokens of a text that aren't in its comments."""
    for line, row in enumerate(text.split("\n"), 1):
        for found in re.finditer(r"[^ \t\r]+", row):
            if found[0] == "\\":
                break
            yield Piece(found[0], line, found.start() + 1)


def literal_of(piece):
    """The number of a token in a form that the plain language lacks, or None."""
    text = piece.text
    if re.fullmatch("-[0-9]{1,8}", text):
        if int(text) < -0x20000:
            raise fault_at(piece, "NumberRange")
        return int(text) % 0x40000
    if re.fullmatch("%[01]{1,18}", text):
        return int(text[1:], 2)
    if re.fullmatch("'[!-~]'", text):
        return ord(text[1])
    if SIDES.fullmatch(text):
        bits = {"right": 0x080, "down": 0x040, "left": 0x020, "up": 0x010}
        return 0x155 ^ sum(bits[side] for side in {*text.split("|")})
    return None


# Operators between two operands, by how strongly they bind.
STRENGTHS = {"|": 0, "&": 1, "<<": 2, ">>": 2, "+": 3, "-": 3, "*": 4, "/": 4, "%": 4}
OPERATOR = re.compile("<<|>>|[|&+*/%-]")


class Reader:
    """Reads an expression from left to right, with a method for each rule of its grammar.

    An expression is its own text, if it has no parts; or a tuple: a sign and the operand behind it, "(" and what is in
    parentheses, or an operator and the operands beside it.
    """

    def __init__(self, text):
        self.text, self.at = text, 0

    def operator(self):
        found = OPERATOR.match(self.text, self.at)
        return found and found[0]

    def expression(self, least=0):
        """Operands, and between them operators that bind at least as strongly as this."""
        left = self.operand()
        while (sign := self.operator()) and STRENGTHS[sign] >= least:
            self.at += len(sign)
            left = sign, left, self.expression(STRENGTHS[sign] + 1)
        return left

    def operand(self):
        """All in front of an operator outside parentheses and quotes that is behind a number, a name or a parenthesis."""
        start, depth, begun = self.at, 0, False
        while self.at < len(self.text) and not (begun and depth == 0 and self.operator()):
            character = self.text[self.at]
            depth = max(0, depth + {"(": 1, ")": -1}.get(character, 0))
            begun = character not in "-("
            self.at += 3 if character == "'" else 1
        return signed(self.text[start : self.at])


def signed(text):
    """A sign and an operand, an expression in parentheses, or neither."""
    if text[:1] == "-" and text[1:2] != "-":
        return "-", signed(text[1:])
    if len(text) > 1 and text[0] == "(" and text[-1] == ")":
        return "(", Reader(text[1:-1]).expression()
    return text


def expression_of(text):
    """The expression that a token is, which has at most 64 bytes. Each byte is read as a character."""
    data = text.encode()
    return Reader(data.decode("latin-1")).expression() if len(data) <= MOST_BYTES else text


def joined(piece, left, right):
    """What `|` makes of two operands: of addresses of ports that of all their ports, of other numbers their bits."""
    if left.is_ports != right.is_ports:
        raise fault_at(piece, "MixedSides")
    if left.is_ports:
        return Operand(0x155 ^ (PORTS_BY_ADDRESS[left.number] | PORTS_BY_ADDRESS[right.number]) << 4, True)
    return Operand(left.number | right.number, False)


def divided(left, right):
    """The quotient that is rounded towards zero, and what is left."""
    quotient = abs(left) // abs(right) * (1 if (left < 0) == (right < 0) else -1)
    return quotient, left - quotient * right


def calculated(piece, sign, left, right):
    """What an operator but `|` makes of two whole numbers."""
    if sign in ("<<", ">>") and not 0 <= right <= 17 or sign in ("/", "%") and right == 0:
        raise fault_at(piece, "NumberRange")
    results = {
        "&": lambda: left & right, "<<": lambda: left << right, ">>": lambda: left >> right, "+": lambda: left + right,
        "-": lambda: left - right, "*": lambda: left * right, "/": lambda: divided(left, right)[0],
        "%": lambda: divided(left, right)[1],
    }  # fmt: skip
    return fitting(piece, results[sign]())


def fitting(piece, number):
    """A part of an expression, whose number fits 32 bits with a sign."""
    if not -(2**31) <= number < 2**31:
        raise fault_at(piece, "NumberRange")
    return Operand(number, False)


def operand_of(piece, constants, expression):
    """The value of an expression."""
    if isinstance(expression, str):
        return plain_operand(piece, constants, expression)
    sign, *parts = expression
    operands = [operand_of(piece, constants, it) for it in parts]
    if sign == "(":
        return operands[0]
    if len(operands) == 1:
        return fitting(piece, -operands[0].number)
    if sign == "|":
        return joined(piece, *operands)
    return calculated(piece, sign, *[it.number for it in operands])


def plain_operand(piece, constants, text):
    """The value of a number or a constant."""
    if text in constants:
        return constants[text]
    if text in NUMBERS:
        return Operand(NUMBERS[text], text in NAMES_OF_PORTS)
    number = literal_of(piece._replace(text=text))
    if NUMBER.fullmatch(text):
        number = int(text[1:], 16) if text[0] == "$" else int(text)
    if number is None:
        raise fault_at(piece, "BadToken")
    if number > 0x3FFFF:
        raise fault_at(piece, "NumberRange")
    return Operand(number, bool(SIDES.fullmatch(text)))


def constant_of(piece, constants):
    """The value of a constant, which may be an expression and fits 18 bits, with a sign or without one."""
    expression = piece.text if SIDES.fullmatch(piece.text) else expression_of(piece.text)
    value = operand_of(piece, constants, expression)
    if not -0x20000 <= value.number <= 0x3FFFF:
        raise fault_at(piece, "NumberRange")
    return value


class Unfolder:
    """Puts the tokens of bodies in place of each `use`, token by token."""

    def __init__(self):
        self.constants, self.bodies, self.left = set(), {}, MOST_TOKENS
        self.definitions, self.parts = [], []
        # The token `body` of the body that is being defined, and its parameters.
        self.body, self.parameters = None, []

    def unfolded(self, pieces):
        pieces = iter(pieces)
        piece = next(pieces, None)
        while piece and piece.text in ("const", "body"):
            piece = self.constant(piece, pieces) if piece.text == "const" else self.definition(piece, pieces)
        self.tokens(piece, pieces)
        return self.definitions + [piece for piece, _ in self.parts]

    def constant(self, const, pieces):
        name, value = next(pieces, None), next(pieces, None)
        if name and name.text in self.bodies:
            raise fault_at(name, "DuplicateName")
        self.definitions += [it for it in (const, name, value) if it]
        self.constants |= {name.text} if name else set()
        return next(pieces, None)

    def check_name(self, piece, taken, has_all):
        if not NAME.fullmatch(piece.text):
            raise fault_at(piece, "BadToken")
        if piece.text in RESERVED or piece.text in WORDS:
            raise fault_at(piece, "ReservedName")
        if piece.text in taken:
            raise fault_at(piece, "DuplicateName")
        if has_all:
            raise fault_at(piece, "TooLarge")

    def definition(self, body, pieces):
        name = next(pieces, None)
        if not name:
            raise fault_at(body, "OpenDefinition")
        self.check_name(name, {*self.bodies, *self.constants}, len(self.bodies) == MOST_BODIES)
        self.body, self.parameters = body, []
        piece = next(pieces, None)
        while piece and piece.line == body.line:
            check_length(piece)
            self.check_name(piece, self.parameters, len(self.parameters) == MOST_PARAMETERS)
            self.parameters.append(piece.text)
            piece = next(pieces, None)
        if not self.tokens(piece, pieces):
            raise fault_at(body, "OpenDefinition")
        self.bodies[name.text] = Body(len(self.parameters), self.parts)
        self.body, self.parameters, self.parts = None, [], []
        return next(pieces, None)

    def part(self, piece):
        """A token, with its number if it is a parameter's name."""
        return piece, self.parameters.index(piece.text) if piece.text in self.parameters else None

    def tokens(self, piece, pieces):
        """The tokens of a body or of the text. Returns whether a body ends."""
        stage = "item"
        while piece:
            if self.body:
                check_length(piece)
                if piece.text == "end":
                    return True
            if stage == "item" and piece.text == "use":
                parts = self.used(piece, pieces)
            else:
                parts = [self.part(piece)]
            self.parts += parts
            for it, _ in parts:
                stage = stage_behind(stage, it.text)
            piece = next(pieces, None)
        return False

    def used(self, use, pieces):
        """The tokens that a `use` stands for."""
        name = self.behind(use, pieces)
        if self.body:
            check_length(name)
        if name.text not in self.bodies:
            raise fault_at(name, "UnknownBody")
        body = self.bodies[name.text]
        if len(body.parts) > self.left:
            raise fault_at(name, "TooLarge")
        self.left -= len(body.parts)
        arguments = []
        for _ in range(body.arity):
            piece = self.behind(use, pieces)
            check_length(piece)
            if piece.line != use.line or piece.text in DELIMITERS:
                raise fault_at(use, "OpenDefinition")
            arguments.append(self.part(piece))
        return [(it, number) if number is None else arguments[number] for it, number in body.parts]

    def behind(self, use, pieces):
        """The next token, which belongs to a `use`."""
        piece = next(pieces, None)
        if piece is None and self.body:
            raise fault_at(self.body, "OpenDefinition")
        if piece is None or self.body and piece.text == "end":
            raise fault_at(use, "OpenDefinition")
        return piece


def check_length(piece):
    """Refuses a token that may stand in many places, if it is too long."""
    if len(piece.text.encode()) > MOST_BYTES:
        raise fault_at(piece, "BadToken")


def spread(pieces):
    """The tokens with a section for each node of a list, in place of the list's section."""
    done, left, at = [], MOST_TOKENS, 0
    while at < len(pieces):
        end = at + (2 if pieces[at].text == "node" else 1)
        section = pieces[at:end]
        if len(section) == 2 and "," in section[1].text:
            while end < len(pieces) and pieces[end].text != "node":
                end += 1
            section = copies(*section, pieces[at + 2 : end], left)
            left -= len(section)
        done += section
        at = end
    return done


def copies(node, names, tokens, left):
    """The sections that one with a list of nodes stands for."""
    nodes = names.text.split(",")
    if not all(NODE.fullmatch(it) for it in nodes):
        raise fault_at(names, "BadNode")
    if len(nodes) * (2 + len(tokens)) > left:
        raise fault_at(names, "TooLarge")
    for it in tokens:
        check_length(it)
    return [it for name in nodes for it in (node, names._replace(text=name), *tokens)]


def stage_behind(stage, text):
    """What may stand behind a token."""
    if stage == "node":
        return "item"
    return "node" if text == "node" else "value" if text == "," or text in LEAPS else "item"


def is_label(text):
    return NAME.fullmatch(text) and text not in RESERVED


class Expander:
    """Expands the tokens of a text one after the other."""

    def __init__(self, pieces):
        self.pieces, self.at = pieces, 0
        self.constants, self.node, self.written = {}, None, []

    def take(self):
        self.at += 1
        return self.pieces[self.at - 1] if self.at <= len(self.pieces) else None

    def word(self, piece):
        number = literal_of(piece)
        if number is None and piece.text in self.constants:
            number = self.constants[piece.text].number % 0x40000
        if number is None and not piece.text.isascii():
            raise fault_at(piece, "BadToken")
        self.written.append(piece if number is None else piece._replace(text=f"${number:05X}"))

    def expand(self):
        while self.at < len(self.pieces) and self.pieces[self.at].text == "const":
            self.definition()
        stage = "value"
        while piece := self.take():
            stage = self.piece_in(stage, piece)
        return self.written

    def definition(self):
        const, name, value = self.take(), self.take(), self.take()
        if name and not NAME.fullmatch(name.text):
            raise fault_at(name, "BadToken")
        if name and (name.text in RESERVED or name.text in WORDS):
            raise fault_at(name, "ReservedName")
        if name and name.text in self.constants:
            raise fault_at(name, "DuplicateName")
        if not value:
            raise fault_at(const, "OpenDefinition")
        self.constants[name.text] = constant_of(value, self.constants)

    def piece_in(self, stage, piece):
        """Expands a token where an item may begin, a value or the name of a node. Returns what may stand behind it."""
        if stage == "node":
            self.word(piece)
            self.node = piece.text if NODE.fullmatch(piece.text) else None
            return "item"
        if stage == "item" and piece.text[-1] == ":" and piece.text[:-1] in self.constants:
            raise fault_at(piece, "DuplicateName")
        if stage == "item" and piece.text[0] == "&" and is_label(piece.text[1:]):
            self.written += [piece._replace(text=it) for it in ("[", "@p", ".", ".", ".", "]", ",", piece.text[1:])]
            return "item"
        number = self.port(piece) if stage == "item" and self.node else None
        if number is not None:
            self.written.append(piece._replace(text=f"${number:05X}"))
            return "item"
        self.word(piece)
        return stage_behind(stage, piece.text)

    def port(self, piece):
        """The port that a direction or `to` and its neighbour name, or None."""
        row, column = divmod(int(self.node), 100)
        places = {
            "north": (row + 1, column), "south": (row - 1, column), "east": (row, column + 1), "west": (row, column - 1),
        }  # fmt: skip
        if piece.text == "to":
            other = self.take()
            if not other or not NODE.fullmatch(other.text):
                raise fault_at(other or piece, "BadNode")
            there, at = divmod(int(other.text), 100), other
        elif piece.text in places:
            there, at = places[piece.text], piece
        else:
            return None
        other = there[0] * 100 + there[1]
        if other not in neighbours(int(self.node)).values():
            raise fault_at(at, "NoNeighbour")
        return int(PORTS[side_to(int(self.node), other)], 16)


def expansion(text):
    """The tokens of the plain text that a text of the larger language expands to."""
    return Expander(spread(Unfolder().unfolded(pieces_of(text)))).expand()


def expanded_text(pieces):
    """A text with these tokens: each is on the line of the one before if they were written on one line."""
    text = ""
    for before, piece in zip([None, *pieces], pieces):
        text += ("" if before is None else " " if before.line == piece.line else "\n") + piece.text
    return text + "\n"


def written_pieces(plain, pieces):
    """By its place in an expansion, each of its tokens as it was written."""
    return {(it.line, it.column): piece for it, piece in zip(pieces_of(plain), pieces)}


def written_fault(fault, text, plain, pieces):
    """A fault of an expansion, at the place where its token was written; the expansion's end is the text's end. One that isn't
    of source text, as of an expansion that is a session, shows the expansion."""
    if not re.match("(source|asm) ", fault.text):
        return Fault(fault.text, fault.place, fault.behind, shows=plain)
    rows = text.split("\n")
    end = len(rows), len(rows[-1]) + 1
    piece = written_pieces(plain, pieces).get(fault.place)
    place = (piece.line, piece.column) if piece else end
    return Fault(re.sub(r"\d+:\d+", f"{place[0]}:{place[1]}", fault.text), place)
