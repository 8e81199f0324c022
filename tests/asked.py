"""What a script asks: its transactions' next calls, from the replies so far.

It is a reading of docs/SCRIPTS.md, and shares nothing with the program.
"""
import re

import plain
from journal import Call

MOST_BYTES = 1024
MOST_STORED = 16384
CARRIERS = ["x_write_ovr", "x_write_seq", "x_write_pipe", "x_sendmsg"]
HANDLES = re.compile("h[0-9]+( h[0-9]+)?")
PASSES = re.compile(r'[0-9]+|".*"|h[0-9]+( h[0-9]+)?|done|late|done faults [0-9]+')
# Replies of calls that are refused before they store anything. An append that is too big for its file isn't one of them.
REFUSED = ["bad handle", "too much", "bad word", "too big"]


class Walk(plain.Terms):
    """A transaction's way through its lines. `next` is what is asked: a call, "commit" or "abort"."""

    def __init__(self, lines, variables, slots):
        self.lines, self.variables, self.slots = lines, dict(variables), slots
        self.at = self.stored = 0
        self.reply, self.saved, self.into = None, None, []
        self.next = self.ask()

    def holds(self, left, test, right):
        return plain.TESTS[test](self.number(left), self.number(right))

    # ---- lines

    def ask(self):
        """Passes the silent lines, up to what is asked next."""
        while self.at < len(self.lines):
            line = self.lines[self.at]
            match line:
                case ["let", name, *terms]:
                    self.variables[name] = self.expression(terms)
                case ["abort"]:
                    return "abort"
                case ["abort", "if", left, test, right]:
                    if self.holds(left, test, right):
                        return "abort"
                case ["require"]:
                    if self.reply is not None and not PASSES.fullmatch(self.reply):
                        return "abort"
                case ["back", "if", left, test, right] if not self.holds(left, test, right):
                    pass
                case _:
                    return self.call(line)
            self.at += 1
        return "commit"

    def call(self, line):
        """The call of a line; "abort" if it carries more bytes than it may."""
        end = line.index("->") if "->" in line else len(line)
        (body, slot), self.into = plain.without_slot(line[:end]), line[end + 1 :]
        verb = body[0]
        words = self.words(verb, body[1:])
        if verb in CARRIERS and len(words[1]) > min(MOST_BYTES, MOST_STORED - self.stored):
            return "abort"
        return Call(verb, words, slot)

    def words(self, verb, words):
        """The values of a call's words."""
        if verb in ("save", "keep", "back"):
            return ()
        if verb == "load":
            return (self.number(words[0]),)
        if verb == "store":
            return self.number(words[0]), self.expression(words[1:])
        if verb in CARRIERS:
            return self.handle(words[0]), self.joined(words[1:])
        if verb in ("x_read", "x_read_pipe", "x_seek"):
            return self.handle(words[0]), self.number(words[1])
        if verb in ("x_len", "x_close", "x_sync", "x_recvmsg", "x_shutdown"):
            return (self.handle(words[0]),)
        return tuple(words)

    # ---- replies

    def answer(self, reply):
        """Goes on behind the asked call. Behind a commit or an abort nothing is asked."""
        if isinstance(self.next, str):
            return
        self.store(reply)
        self.reply = reply
        if self.next.verb == "save":
            self.saved = dict(self.variables)
        elif self.next.verb == "back":
            self.variables = self.saved
            self.at = self.lines.index(["keep"], self.at)
        self.bind(reply)
        self.at += 1
        self.next = self.ask()

    def store(self, reply):
        """Counts the bytes that the asked call stored."""
        verb, words, _ = self.next
        if reply in REFUSED and (verb, reply) != ("x_write_seq", "too big"):
            return
        self.stored += len(words[1]) if verb in CARRIERS else 0
        self.stored += len(plain.bytes_of(reply)) if reply[0] == '"' else 0

    def bind(self, reply):
        """Sets the variables of the asked call."""
        values = []
        if reply.isdigit():
            values = [int(reply)]
        elif reply[0] == '"':
            values = [plain.bytes_of(reply)]
        elif HANDLES.fullmatch(reply):
            values = reply.split()
        for name in self.into:
            self.variables.pop(name, None)
        self.variables.update(zip(self.into, values))
