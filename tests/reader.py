"""A reader of scripts: whether a script is taken, and else its first bad line and the reason against it.

It is a second reading of docs/SCRIPTS.md, and shares nothing with the program. `read(data)` gives None if the script is taken,
or `(line, reason)`. The checks of a line come in the order of the page's table of reasons, so the first that fails is the one to name.
"""
import re

MOST_BYTES = 1048576
MOST_REPEATS = 65536
MOST_IN_QUOTES = 1024
LINE = re.compile(rb"[\t -~]*")
NUMBER = re.compile(r"[0-9]{1,20}")
IDENTIFIER = re.compile(r"[a-z][a-z0-9_]{0,31}")
FILE = re.compile(r"(?!\.+\Z)[A-Za-z0-9._-]{1,64}")
UNIT = r'[^"\\]|\\[n"\\]|\\x[0-9A-Fa-f]{2}'
LITERAL = re.compile(rf'"((?:{UNIT})*)"(?:\*([0-9]{{1,20}}))?(?![^\t ])')
BLANKS = re.compile(r"[\t ]*")
WORD = re.compile(r"[^\t ]+")

# Lines and the shapes of what comes after their first words. Capitals are places, and all else is a sign that has to be there.
PROLOGUE = {
    "words": ["COUNT"],
    "word": ["INDEX NUMBER"],
    "file": ["FILE LITERALS"],
    "pipe": ["VARIABLE LITERALS"],
    "pair": ["VARIABLE VARIABLE"],
    "fault": ["KIND CALL", "KIND CALL CALL"],
    "grain": ["GRAIN"],
}
BLOCKS = {"job": ["BLOCK"], "body": ["BLOCK"]}
TRANSACTIONS = {"tx": [""], "end": [""]}
CALLS = {
    "load": ["TERM", "TERM -> VARIABLE"],
    "store": ["TERM TERM", "TERM TERM SIGN TERM"],
    "x_open": ["FILE", "FILE -> VARIABLE"],
    "x_create": ["FILE", "FILE -> VARIABLE"],
    "x_rename": ["FILE FILE"],
    "x_read": ["VARIABLE TERM", "VARIABLE TERM -> VARIABLE"],
    "x_write_ovr": ["VARIABLE ITEMS"],
    "x_write_seq": ["VARIABLE ITEMS"],
    "x_seek": ["VARIABLE TERM"],
    "x_len": ["VARIABLE", "VARIABLE -> VARIABLE"],
    "x_close": ["VARIABLE"],
    "x_unlink": ["FILE", "FILE slot SLOT"],
    "x_sync": ["VARIABLE", "VARIABLE slot SLOT"],
    "x_pipe": ["", "-> VARIABLE"],
    "x_read_pipe": ["VARIABLE TERM", "VARIABLE TERM -> VARIABLE"],
    "x_write_pipe": ["VARIABLE ITEMS", "VARIABLE ITEMS slot SLOT"],
    "x_pair": ["", "-> VARIABLE VARIABLE"],
    "x_recvmsg": ["VARIABLE", "VARIABLE -> VARIABLE"],
    "x_sendmsg": ["VARIABLE ITEMS", "VARIABLE ITEMS slot SLOT"],
    "x_shutdown": ["VARIABLE", "VARIABLE slot SLOT"],
    "x_thread_create": ["STARTED", "STARTED slot SLOT"],
}
OTHERS = {
    "let": ["VARIABLE TERM", "VARIABLE TERM SIGN TERM"],
    "abort": ["", "if TERM OP TERM"],
    "require": [""],
}
OUTSIDE = {"save": [""], "commit": [""]}
INSIDE = {"keep": [""], "back": ["", "if TERM OP TERM"]}
COUNTED = {*CALLS, "save", "keep", "back"}
# The lines of each place, and the place that follows a line, if it is another one.
PLACES = {
    "prologue": {**PROLOGUE, **BLOCKS},
    "block": TRANSACTIONS,
    "transaction": {**CALLS, **OTHERS, **OUTSIDE},
    "inner block": {**CALLS, **OTHERS, **INSIDE},
    "after": BLOCKS,
}
NEXT = {
    "job": "block",
    "body": "block",
    "tx": "transaction",
    "save": "inner block",
    "keep": "transaction",
    "commit": "block",
    "end": "after",
}
MAY_END = ("prologue", "after")
KINDS = """lookup create len read_at write_at append rename unlink sync new_pipe pipe_state take put
new_pair pair_state recv send shut restore cut uncreate name_back drop_pipe drop_pair any"""
# Places for one of some words, and places for several tokens: at least so many, and at most so many.
CHOICES = {"SIGN": ["+", "-"], "OP": ["=", "!=", "<", "<=", ">", ">="], "KIND": KINDS.split()}
SEVERAL = {"LITERALS": (0, MOST_BYTES), "ITEMS": (1, 16)}
RANGES = {"COUNT": (1, 4096), "CALL": (1, 2**64 - 1), "GRAIN": (1, 65536), "NUMBER": (0, 2**64 - 1)}
NAMES = {"VARIABLE": IDENTIFIER, "SLOT": IDENTIFIER, "BLOCK": IDENTIFIER, "STARTED": IDENTIFIER, "FILE": FILE}
# How many bytes the literals of a line mean together, and how many lines there may be.
MOST_IN_LINE = {"file": 65536, "pipe": 4096}
MOST_IN_CALL = 1024
MOST_OBJECTS = {"pipe": 64, "pair": 32}
MOST_OBJECTS_TOGETHER = 4096
MOST_BLOCKS = MOST_TRANSACTIONS = 1000
MOST_CALLS = MOST_VARIABLES = MOST_SLOTS = 256


def tokens_of(line):
    """The words of a line. A literal is the number of its bytes. None if a literal is bad."""
    found, at = [], BLANKS.match(line).end()
    while at < len(line) and line[at] != "#":
        match = (LITERAL if line[at] == '"' else WORD).match(line, at)
        if not match:
            return None
        if line[at] == '"':
            size, times = len(re.findall(UNIT, match[1])), int(match[2] or 1)
            if size > MOST_IN_QUOTES or times > MOST_REPEATS:
                return None
            found.append(size * times)
        elif '"' in match[0]:
            return None
        else:
            found.append(match[0])
        at = BLANKS.match(line, match.end()).end()
    return found


def fits(place, token):
    """Whether the form of a token is that of its place."""
    if place == "LITERALS":
        return isinstance(token, int)
    if place == "ITEMS":
        return isinstance(token, int) or token[0] in "$@"
    if place in CHOICES:
        return token in CHOICES[place]
    return isinstance(token, str) and (place.isupper() or token == place)


def placed(shape, tokens):
    """Each token with its place, or None if the shape isn't theirs."""
    places = shape.split()
    for at, place in enumerate(places):
        if place in SEVERAL:
            count = len(tokens) - (len(places) - 1)
            least, most = SEVERAL[place]
            if not least <= count <= most:
                return None
            places[at : at + 1] = [place] * count
            break
    if len(places) != len(tokens) or not all(map(fits, places, tokens)):
        return None
    return list(zip(places, tokens))


def meant(place, token):
    """A token with the place that it is meant for: how it begins decides in the place of a term or an item. A literal has none."""
    if place == "ITEMS":
        return (None, token) if isinstance(token, int) else meant("VARIABLE" if token[0] == "$" else "TERM", token[1:])
    if place == "TERM":
        if token[:1].isdigit():
            return "NUMBER", token
        return ("SLOT", token[1:]) if token[:1] == "?" else ("VARIABLE", token)
    return place, token


class Reader:
    """What the lines before have said."""

    def __init__(self):
        self.place = "prologue"
        self.words = 16
        self.seen = set()
        self.files, self.blocks, self.variables, self.slots = set(), set(), set(), set()
        self.objects = {"file": 0, "pipe": 0, "pair": 0}
        self.transactions = self.calls = 0

    def reason(self, line):
        """The first reason against a line, or None. A line without a reason is noted."""
        if not LINE.fullmatch(line):
            return "bad byte"
        tokens = tokens_of(line.decode())
        if tokens is None:
            return "bad literal"
        if not tokens:
            return None
        first, rest = tokens[0], tokens[1:]
        if first not in PLACES[self.place]:
            return "unknown line"
        found = [pairs for shape in PLACES[self.place][first] if (pairs := placed(shape, rest)) is not None]
        if not found:
            return "bad form"
        pairs = [meant(place, token) for place, token in found[0]]
        if not self.numbers_are_fine(pairs):
            return "bad number"
        if not all(NAMES[place].fullmatch(token) for place, token in pairs if place in NAMES):
            return "bad name"
        if self.is_twice(first, rest):
            return "twice"
        self.note(first, rest, pairs)
        return "too many" if self.is_too_many(first, rest) else None

    def numbers_are_fine(self, pairs):
        """Whether each number is one, and one that is allowed in its place. The last call of a `fault` isn't below its first."""
        ranges = {**RANGES, "INDEX": (0, self.words - 1)}
        numbers = [(place, token) for place, token in pairs if place in ranges]
        if not all(NUMBER.fullmatch(token) for _, token in numbers):
            return False
        if not all(ranges[place][0] <= int(token) <= ranges[place][1] for place, token in numbers):
            return False
        calls = [int(token) for place, token in numbers if place == "CALL"]
        return calls == sorted(calls)

    def is_twice(self, first, rest):
        """Whether the line is a second one of a kind or of a name that may be there once."""
        if first == "words":
            return bool(self.seen & {"words", "word"})
        if first == "grain":
            return "grain" in self.seen
        if first == "file":
            return rest[0] in self.files
        return first in BLOCKS and rest[0] in self.blocks

    def note(self, first, rest, pairs):
        """Counts the line and what it names, and goes on to its next place."""
        self.place = NEXT.get(first, self.place)
        self.seen.add(first)
        self.variables.update(token for place, token in pairs if place == "VARIABLE")
        self.slots.update(token for place, token in pairs if place == "SLOT")
        if first == "words":
            self.words = int(rest[0])
        elif first in self.objects:
            self.objects[first] += 1
            self.files.update(rest[:1] if first == "file" else [])
        elif first in BLOCKS:
            self.blocks.add(rest[0])
            self.transactions = 0
        elif first == "tx":
            self.transactions += 1
            self.calls = 0
        elif first in COUNTED:
            self.calls += 1

    def is_too_many(self, first, rest):
        """Whether the line that was noted last is one too many, or its literals are too long together."""
        return (
            sum(token for token in rest if isinstance(token, int)) > MOST_IN_LINE.get(first, MOST_IN_CALL)
            or any(self.objects[kind] > most for kind, most in MOST_OBJECTS.items())
            or sum(self.objects.values()) > MOST_OBJECTS_TOGETHER
            or len(self.blocks) > MOST_BLOCKS
            or self.transactions > MOST_TRANSACTIONS
            or self.calls > MOST_CALLS
            or len(self.variables) > MOST_VARIABLES
            or len(self.slots) > MOST_SLOTS
        )


def read(data):
    """None if the script is taken, or the number of its first bad line and the first reason against it."""
    if len(data) > MOST_BYTES:
        return 0, "too long"
    reader, lines = Reader(), data.removesuffix(b"\n").split(b"\n")
    for number, line in enumerate(lines, 1):
        reason = reader.reason(line)
        if reason:
            return number, reason
    return None if reader.place in MAY_END else (len(lines), "unclosed")
