"""What clients asked, as a text of theirs tells it. No script says it, so their calls are what the entries say.

It is a reading of docs/LIVE.md, and shares nothing with the program. What a client asked last isn't in its entry where that ended by a
conflict or a revocation, or for want of memory: then it is `ANY`, some call that it may make. What such a call has to touch is found from
the entries that name it.
"""
from journal import Call

ANY = "any call"
BACK = Call("back", (), None)
# What was asked behind the calls of an entry, by the kind of its cause; None is that of a commit.
LAST = {None: "commit", "asked": "abort", "stuck": BACK, "conflict": ANY, "revoked": ANY, "no memory": ANY}
# Where a save may stand, and where a keep or a back: outside of a block, and within one.
PLACES = {"save": False, "keep": True, "back": True}


class Told:
    """The way of a transaction through the calls of its entry. `next` is what is asked: a call, "commit", "abort" or `ANY`."""

    variables = {}

    def __init__(self, entry):
        self.calls, self.last = entry.calls, LAST[entry.cause and entry.cause.kind]
        self.at, self.is_placed, self.is_saved = 0, True, False
        self.next = self.ask()

    def ask(self):
        """What is asked at this place of the way."""
        return self.calls[self.at] if self.at < len(self.calls) else self.last

    def answer(self, _):
        """Goes on behind the asked call. A client starts no job, and its blocks don't stand in one another."""
        verb = self.next.verb
        due = PLACES.get(verb, self.is_saved)
        self.is_placed = self.is_placed and due == self.is_saved and verb != "x_thread_create"
        self.is_saved = verb == "save" or self.is_saved and verb not in ("keep", "back")
        self.at += 1
        self.next = self.ask()


class Wish:
    """What the last call of an entry touches where the entry doesn't say it: all that others name, as long as one call may touch it all.
    Any of these objects may be wanted so that nobody else may have it.
    """

    def __init__(self, words, places):
        self.words, self.places, self.names = words, places, []

    def __contains__(self, name):
        names = [*self.names, *([] if name in self.names else [name])]
        is_one = may_touch(names, self.words, self.places)
        self.names = names if is_one else self.names
        return is_one

    def __getitem__(self, name):
        return name in self.names


def may_touch(names, words, places):
    """Whether some call of a client touches all these objects: it has one, or two names. A file, a pipe or a pair is open at a handle."""
    kinds = {name.partition(" ")[0] for name in names}
    if len(names) > (2 if kinds == {"name"} else 1):
        return False
    opened = {" ".join(place[:2]) for place in places.values()}
    return all(may_touch_one(*name.split(" ", 1), words, opened) for name in names if name != "jobs") and "jobs" not in names


def may_touch_one(kind, what, words, opened):
    """Whether some call of a client touches this object."""
    if kind == "word":
        return int(what) < words
    return kind == "name" or f"{kind} {what}" in opened
