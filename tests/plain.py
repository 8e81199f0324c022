"""What readings of scripts and journals share: the words of a line, literals, bytes as a journal shows them, and a script's lines in
their places. A script that is read here was taken before; of any other nothing is said.

A variable holds a number, bytes, or a handle as a journal shows it, as `h0`. Lines stay lists of words. An object's number is the text
that a journal has of it, as `0.1`. What is open at a handle is a tuple of its kind, its number and what more is known of it:
`("pipe", "0.0")`, or `("pair", "0.1", 1)` with the side.
"""
import collections
import re

TOKEN = re.compile(r'"(?:[^"\\]|\\.)*"(?:\*\d+)?|\S+')
TESTS = {
    "=": int.__eq__, "!=": int.__ne__, "<": int.__lt__, "<=": int.__le__, ">": int.__gt__, ">=": int.__ge__,
}
# The calls that may have a slot.
LATE = {"x_unlink", "x_sync", "x_write_pipe", "x_shutdown", "x_sendmsg", "x_thread_create"}
# What a slot is as a term, by the words of the end that it took.
SLOT_NUMBERS = {"done": 0, "full": 1, "no name": 2, "no script": 3, "fault": 4, "no memory": 5, "shut": 6}
ESCAPES = {10: "\\n", 34: '\\"', 92: "\\\\"}
SHOWN = [ESCAPES.get(byte) or (chr(byte) if 32 <= byte < 127 else f"\\x{byte:02x}") for byte in range(256)]

# The files have a number and bytes, the pipes bytes. The handles are pairs of a variable and what it has open, in the order of their
# places. The blocks are those of jobs and bodies, each with its transactions' lines; `jobs` names those that are there at the opening.
Script = collections.namedtuple("Script", "words files pipes pairs handles blocks jobs")


def bytes_of(quoted):
    """The bytes between the quotes of a text."""
    return quoted[1:-1].encode().decode("unicode_escape").encode("latin-1")


def literal(token):
    """The bytes of a literal."""
    quoted, quote, times = token.rpartition('"')
    return bytes_of(quoted + quote) * (int(times[1:]) if times else 1)


def tokens(line):
    """The words of a line, without its comment."""
    words = TOKEN.findall(line)
    for at, word in enumerate(words):
        if word.startswith("#"):
            return words[:at]
    return words


def shown(value):
    """Bytes as a journal shows them."""
    return '"' + "".join(map(SHOWN.__getitem__, value)) + '"'


def slot_number(end):
    """What a slot is as a term, by the end that it took."""
    return SLOT_NUMBERS[end.rstrip("0123456789").rstrip()]


def read_script(text):
    """The words, the objects and the blocks of a script."""
    words, files, pipes, pairs, handles, blocks, jobs = [0] * 16, {}, {}, [], [], {}, []
    for line in filter(None, map(tokens, text.splitlines())):
        match line:
            case ["words", count]:
                words = [0] * int(count)
            case ["word", at, value]:
                words[int(at)] = int(value)
            case ["file" | "pipe" | "pair" as kind, name, *parts]:
                number = f"0.{len(files) + len(pipes) + len(pairs)}"
                if kind == "file":
                    files[name] = number, b"".join(map(literal, parts))
                elif kind == "pipe":
                    pipes[number] = b"".join(map(literal, parts))
                    handles.append((name, ("pipe", number)))
                else:
                    pairs.append(number)
                    handles += [(name, ("pair", number, 0)), (parts[0], ("pair", number, 1))]
            case ["job" | "body" as kind, name]:
                block = blocks[name] = []
                jobs += [name] if kind == "job" else []
            case ["tx"]:
                block.append([])
            case ["commit"] | ["end"] | ["fault" | "grain", *_]:
                pass
            case _:
                block[-1].append(line)
    return Script(words, files, pipes, pairs, handles, blocks, jobs)


def without_slot(body):
    """A call without the slot behind it, and the slot; None where there is none."""
    if body[0] in LATE and len(body) > 3 and body[-2] == "slot":
        return body[:-2], body[-1]
    return body, None


class Terms:
    """What terms, handles and items mean, by `variables` and `slots`."""

    def number(self, term):
        if term[0] == "?":
            return self.slots.get(term[1:], 0)
        value = int(term) if term[0].isdigit() else self.variables.get(term)
        return value if isinstance(value, int) else 0

    def expression(self, terms):
        value = self.number(terms[0])
        if len(terms) == 3:
            value += self.number(terms[2]) if terms[1] == "+" else -self.number(terms[2])
        return value % 2**64

    def handle(self, name):
        value = self.variables.get(name)
        return value if isinstance(value, str) else "h-"

    def item(self, item):
        if item[0] == '"':
            return literal(item)
        if item[0] == "$":
            value = self.variables.get(item[1:])
            return value if isinstance(value, bytes) else b""
        return str(self.number(item[1:])).encode()

    def joined(self, items):
        return b"".join(map(self.item, items))
