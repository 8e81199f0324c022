"""A reader of printed journals: the entries and the lines behind them, or the first line that may not stand where it stands.

It is a reading of docs/SCRIPTS.md, and shares nothing with the program. It looks at the form alone: each line is spelled as a journal
prints it, its numbers are within the ranges of their types, and the kinds of lines come in their order. Late ends count up from 1, and
`undo` lines count down to 1. Whether a line is true is for tests/player.py.
"""
import collections
import re

import plain

Call = collections.namedtuple("Call", "verb words slot")
Cause = collections.namedtuple("Cause", "kind object other at")
Undo = collections.namedtuple("Undo", "kind end restored faults by")
Entry = collections.namedtuple("Entry", "line place kind number job rank began cause calls replies late undos remains held")
# The entries, the number of the first line behind them, and the lines there: jobs, words, kept data and totals, each with its values.
Journal = collections.namedtuple("Journal", "entries line jobs words kept totals")


def at_most(limit):
    """A pattern of the numbers from 0 up to a limit, without zeros in front."""
    digits = str(limit)
    found = ["0", rf"[1-9][0-9]{{0,{len(digits) - 2}}}", digits]
    for at, digit in enumerate(digits):
        least = 1 if at == 0 else 0
        if int(digit) > least:
            found.append(rf"{digits[:at]}[{least}-{int(digit) - 1}][0-9]{{{len(digits) - at - 1}}}")
    return rf"(?:{'|'.join(found)})"


U8, U16, U32, U64 = (at_most(2**bits - 1) for bits in (8, 16, 32, 64))
HANDLE = f"(?:h-|h{at_most(2**16 - 2)})"
NUMBER = rf"{U32}\.{U16}"
NAME = r"(?=\.*[A-Za-z0-9_-])[A-Za-z0-9._-]{1,64}(?![A-Za-z0-9._-])"
IDENTIFIER = r"[a-z][a-z0-9_]{0,31}"
BYTES = r'"(?:[ !#-\[\]-~]|\\[n"\\]|\\x(?:0[0-9b-f]|1[0-9a-f]|7f|[89a-f][0-9a-f]))*"'
OBJECT = f"(?:word {U32}|name {NAME}|(?:file|pipe|pair) {NUMBER}|jobs)"
REPLY = (
    f"(?:{U64}|{BYTES}|{HANDLE}|{HANDLE} {HANDLE}|done|end|empty|no name|exists|bad handle|past end|too big|too much|bad word|late"
    f"|fault {U32}|done faults {U32})"
)
LATE_END = f"(?:done|shut|no name|no script|(?:full|fault|no memory) {U32})"
CAUSE = f"asked|(conflict) ({OBJECT}) holder t({U32}) at ({U32})|(revoked) ({OBJECT}) by t({U32}) at ({U32})|no memory|(stuck) undo ({U32})"
# What comes behind the words of calls; those in the second list may end with a slot.
CALLS = {
    "load": [U64],
    "store": [U64, U64],
    "x_open": [NAME],
    "x_create": [NAME],
    "x_read": [HANDLE, U64],
    "x_write_ovr": [HANDLE, BYTES],
    "x_write_seq": [HANDLE, BYTES],
    "x_seek": [HANDLE, U64],
    "x_len": [HANDLE],
    "x_rename": [NAME, NAME],
    "x_close": [HANDLE],
    "x_pipe": [],
    "x_read_pipe": [HANDLE, U64],
    "x_pair": [],
    "x_recvmsg": [HANDLE],
    "save": [],
    "keep": [],
    "back": [],
}
LATE_CALLS = {
    "x_unlink": [NAME],
    "x_sync": [HANDLE],
    "x_write_pipe": [HANDLE, BYTES],
    "x_shutdown": [HANDLE],
    "x_sendmsg": [HANDLE, BYTES],
    "x_thread_create": [IDENTIFIER],
}


def call_pattern(verb):
    """The pattern of a call's line: the values, a slot if the call may have one, and the reply."""
    values = "".join(f" ({value})" for value in CALLS.get(verb, LATE_CALLS.get(verb)))
    return re.compile(f"  {verb}{values}{f'(?: slot ({IDENTIFIER}))?' if verb in LATE_CALLS else ''} = ({REPLY})")


CALL_PATTERNS = {verb: call_pattern(verb) for verb in (*CALLS, *LATE_CALLS)}
# The kinds of lines in their order in an entry, and behind all entries.
ENTRY_KINDS = ["first", "call", "late", "undo", "remains", "held"]
LAST_KINDS = ["job", "word", "kept", "total"]
ORDER = {kind: at for at, kind in enumerate(ENTRY_KINDS + LAST_KINDS)}
PATTERNS = {
    kind: re.compile(pattern)
    for kind, pattern in {
        "first": f"(commit|abort) t({U32}) job ({U32}) rank ({U32}) began ({U32})(?: ({CAUSE}))?",
        "late": f"  late ({U64}) = ({LATE_END})",
        "undo": f"  undo ({U64}) (bytes|tail|made|moved|pipe|pair) "
        f"(?:(done) faults ({U32})|(failed) restored ({U32}) faults ({U32})|(blocked) by ({U32}))",
        "remains": f"  remains (?:bytes file {NUMBER} at {U64} {BYTES}|tail file {NUMBER} from {U32} {BYTES}"
        f"|made {NAME} file {NUMBER}|moved {NAME} {NAME}|(?:pipe|pair) {NUMBER})",
        "held": f"  held {OBJECT}(?: shared)?(?:, {OBJECT}(?: shared)?)*",
        "job": f"job ({U64}) ({IDENTIFIER}) (done|gave up|journal full|no memory)",
        "word": f"word ({U64}) ({U64})",
        "kept": f"kept (?:(pipe) ({NUMBER})|(pair) ({NUMBER}) side ({U8})) ({BYTES})",
        "total": f"total ({U64}) committed, ({U64}) aborted, ({U64}) faults, ({U64}) remains",
    }.items()
}
FIRST_WORDS = re.compile(r"commit|abort|  late|  undo|  remains|  held|job|word|kept|total|  ")
KINDS = {"commit": "first", "abort": "first", "  ": "call"}


def kind_of(line):
    """The kind of a line by its first words, or None."""
    found = FIRST_WORDS.match(line)
    return KINDS.get(found[0], found[0].strip()) if found else None


def matched(kind, line):
    """The match of a line of a kind, or None."""
    if kind == "call":
        pattern = CALL_PATTERNS.get(line[2:].partition(" ")[0])
        return pattern.fullmatch(line) if pattern else None
    return PATTERNS[kind].fullmatch(line) if kind else None


def value_of(text):
    """A value of a call: a number, bytes, or the text of a handle or a name."""
    if text[0] == '"':
        return plain.bytes_of(text)
    return text


def call_of(line, found):
    """The call of a line. A number is told from a name by the call."""
    verb = line[2:].partition(" ")[0]
    kinds, values = CALLS.get(verb, LATE_CALLS.get(verb)), found.groups()
    words = tuple(int(value) if kind == U64 else value_of(value) for kind, value in zip(kinds, values))
    return Call(verb, words, values[len(kinds)] if verb in LATE_CALLS else None)


def cause_of(found):
    """The cause behind the numbers of an abort; None for a commit."""
    if found[6] is None:
        return None
    values = [value for value in found.groups()[6:] if value is not None]
    if not values:
        return Cause(found[6], None, None, None)
    if values[0] == "stuck":
        return Cause("stuck", None, int(values[1]), None)
    return Cause(values[0], values[1], int(values[2]), int(values[3]))


def undo_of(found):
    """The end of a record: how many bytes are restored, and how many faults were met, or by which record it is blocked."""
    _, kind, *values = found.groups()
    end, *numbers = [value for value in values if value is not None]
    numbers = list(map(int, numbers))
    if end == "done":
        return Undo(kind, end, None, numbers[0], None)
    return Undo(kind, end, *numbers, None) if end == "failed" else Undo(kind, end, None, None, numbers[0])


def held_of(line):
    """The held objects, each with whether it is held exclusively."""
    parts = line.removeprefix("  held ").split(", ")
    return [(part.removesuffix(" shared"), not part.endswith(" shared")) for part in parts]


class Reader:
    """The lines so far. `due` is how many `undo` lines have to come next."""

    def __init__(self):
        self.journal = Journal([], 0, [], [], [], [])
        self.last, self.due, self.entry = "held", 0, None

    def may_stand(self, kind):
        """Whether a line of a kind may come next."""
        if self.due:
            return kind == "undo"
        if kind == "first":
            return ORDER[self.last] <= ORDER["held"]
        if kind in ("late", "undo", "remains") and (not self.entry or (kind == "late") != (self.entry.kind == "commit")):
            return False
        if kind == "remains" and self.last not in ("undo", "remains"):
            return False
        if kind in ("held", "total"):
            return ORDER[self.last] < ORDER[kind]
        return ORDER[self.last] <= ORDER[kind]

    def read(self, at, line):
        """Notes a line; gives whether it may stand."""
        kind = kind_of(line)
        found = matched(kind, line)
        if not found or not self.may_stand(kind):
            return False
        self.last = kind
        if kind == "first":
            return self.begin(at, found)
        if kind in ENTRY_KINDS:
            return self.note(kind, line, found)
        values = [int(value) if value.isdigit() else value_of(value) for value in found.groups() if value is not None]
        lists = {"job": self.journal.jobs, "word": self.journal.words, "kept": self.journal.kept, "total": self.journal.totals}
        lists[kind].append(tuple(values))
        return True

    def begin(self, at, found):
        """The first line of an entry: an abort has a cause, and a commit has none."""
        cause, entries = cause_of(found), self.journal.entries
        self.entry = Entry(at, len(entries), found[1], *map(int, found.group(2, 3, 4, 5)), cause, [], [], [], [], [], [])
        entries.append(self.entry)
        return (cause is None) == (found[1] == "commit")

    def note(self, kind, line, found):
        """Another line of an entry. The `undo` lines come from the newest record on, and are noted from the oldest on."""
        if kind == "call":
            self.entry.calls.append(call_of(line, found))
            self.entry.replies.append(found[found.lastindex])
        elif kind == "late":
            self.entry.late.append(found[2])
            return int(found[1]) == len(self.entry.late)
        elif kind == "undo":
            number, is_next = int(found[1]), not self.entry.undos or int(found[1]) == self.due
            self.entry.undos.insert(0, undo_of(found))
            self.due = number - 1
            return is_next and number > 0
        elif kind == "remains":
            self.entry.remains.append(line)
        else:
            self.entry.held.extend(held_of(line))
        return True


def read(text):
    """The journal of a text, or the number of the first line that may not stand there, which may be one behind the last."""
    *lines, rest = text.decode("latin-1").split("\n")
    reader, behind = Reader(), None
    for at, line in enumerate(lines, 1):
        if not reader.read(at, line):
            return at
        if behind is None and reader.last in LAST_KINDS:
            behind = at
    if rest or reader.last != "total":
        return len(lines) + 1
    return reader.journal._replace(line=behind)
