"""The plain machine: what each call of a journal does to words, files, names, pipes and pairs, and what it replies.

It is a reading of docs/SCRIPTS.md, and shares nothing with the program. A `World` is what all jobs share, and a `Body` the calls of one
transaction, one after another. No call asks a host: whether one failed is read off the reply that the journal has, and the reply that
is due is None if no host could fail there so.

Data are never changed in their place, so a copy of a world has copies of its maps alone.
"""
import collections
import copy
import re

import plain

MOST_BYTES = 1024
MOST_STORED = 16384
MOST_MADE = 16
MOST_IN_FILE = 65536
MOST_IN_PIPE = 4096
MOST_WAITING = 8
MOST_JOBS = 1000
PLACES = [f"h{at}" for at in range(256)]
FAULT = re.compile("fault ([0-9]+)")
FAILED = re.compile("(fault|no memory) ([0-9]+)")
BACK = re.compile("done faults ([0-9]+)")
# The calls at a handle, and what has to be open there.
KINDS = {
    **dict.fromkeys(["x_read", "x_write_ovr", "x_write_seq", "x_seek", "x_len", "x_sync"], ["file"]),
    **dict.fromkeys(["x_read_pipe", "x_write_pipe"], ["pipe"]),
    **dict.fromkeys(["x_recvmsg", "x_sendmsg"], ["pair"]),
    "x_shutdown": ["pipe", "pair"],
    "x_close": ["file", "pipe", "pair"],
}
READS = ["x_read", "x_read_pipe"]
WRITES = ["x_write_ovr", "x_write_seq"]
CARRIERS = [*WRITES, "x_write_pipe", "x_sendmsg"]
MAKERS = ["x_create", "x_pipe", "x_pair"]
OPENERS = {"x_open": 1, "x_create": 1, "x_pipe": 1, "x_pair": 2}
BLOCK_CALLS = ["save", "keep", "back"]
ONLY_LOOK = ["load", "x_open", "x_read", "x_len", "x_sync"]
# The calls that make a call of the host whatever they name.
ASK_HOST = ["x_open", "x_create", "x_len", "x_rename", "x_pipe", "x_pair", "x_recvmsg"]

Late = collections.namedtuple("Late", "slot kind what side data")
# The parts are those of a `remains` line: of an overwrite or append its file, its place there and its bytes.
Record = collections.namedtuple("Record", "kind objects parts")
Saved = collections.namedtuple("Saved", "world places late records")


class World:
    """The words, the names, the files, the pipes with their bytes, the pairs with the messages that wait for each side, what of these
    is shut, and the blocks of the jobs started so far.
    """

    def __init__(self, script):
        self.words = list(script.words)
        self.names = {name: number for name, (number, _) in script.files.items()}
        self.files = {number: bytes(data) for number, data in script.files.values()}
        self.pipes = {number: bytes(data) for number, data in script.pipes.items()}
        self.pairs = {number: ((), ()) for number in script.pairs}
        self.shut, self.started, self.blocks = frozenset(), tuple(script.jobs), frozenset(script.blocks)

    def copy(self):
        other = copy.copy(self)
        other.words, other.names, other.files = list(self.words), dict(self.names), dict(self.files)
        other.pipes, other.pairs = dict(self.pipes), dict(self.pairs)
        return other

    def set_waiting(self, pair, side, messages):
        """The messages that wait for a side of a pair from now on."""
        sides = list(self.pairs[pair])
        sides[side] = messages
        self.pairs[pair] = tuple(sides)

    def overwrite(self, file, at, data):
        """Puts bytes over those of a file from a place on; the file may get longer by them."""
        old = self.files[file]
        self.files[file] = old[:at] + data + old[at + len(data) :]

    # ---- late calls

    def late(self, call, said):
        """Does a late call; gives the end that is due. Whether the host failed, or memory was wanting, is read off what is said."""
        failed = FAILED.fullmatch(said)
        if not failed:
            return getattr(self, f"late_{call.kind}")(call)
        cause, count = failed[1], int(failed[2])
        if count and (call.kind != "write" or count >= self.fitting(call)) or cause == "fault" and call.kind == "thread":
            return None
        if count:
            self.pipes[call.what] += call.data[:count]
        return said

    def fitting(self, call):
        """How many bytes of a late write fit into its pipe."""
        return 0 if call.what in self.shut else min(MOST_IN_PIPE - len(self.pipes[call.what]), len(call.data))

    def late_unlink(self, call):
        return "done" if self.names.pop(call.what, None) else "no name"

    def late_sync(self, _):
        return "done"

    def late_write(self, call):
        if call.what in self.shut:
            return "shut"
        count = self.fitting(call)
        self.pipes[call.what] += call.data[:count]
        return "done" if count == len(call.data) else f"full {count}"

    def late_send(self, call):
        other = 1 - call.side
        waiting = self.pairs[call.what][other]
        if call.what in self.shut:
            return "shut"
        if len(waiting) == MOST_WAITING:
            return "full 0"
        self.set_waiting(call.what, other, (*waiting, call.data))
        return "done"

    def late_shutdown(self, call):
        self.shut |= {call.what}
        return "done"

    def late_thread(self, call):
        if call.what not in self.blocks:
            return "no script"
        if len(self.started) == MOST_JOBS:
            return "full 0"
        self.started += (call.what,)
        return "done"

    # ---- effects that stand

    def stand(self, record, restored):
        """The effect of a record that isn't undone; of an overwrite the first bytes may be restored."""
        kind, parts = record.kind, record.parts
        if kind == "bytes":
            file, at, data = parts
            self.overwrite(file, at + restored, data[restored:])
        elif kind == "tail":
            self.overwrite(*parts)
        elif kind == "made":
            self.names[parts[0]], self.files[parts[1]] = parts[1], b""
        elif kind == "moved":
            self.names[parts[1]] = self.names.pop(parts[0])
        elif kind == "pipe":
            self.pipes[parts[0]] = b""
        else:
            self.pairs[parts[0]] = (), ()


class Body:
    """The calls of one transaction so far, and in an open block what there was at its save."""

    def __init__(self, world, places, number):
        self.world, self.places, self.number = world.copy(), dict(places), number
        self.late, self.records, self.held, self.saved = [], [], {}, None
        self.made = self.stored = self.faults_of_backs = 0

    # ---- what a call may do

    def refusal(self, call):
        """The reply of a call that is refused before anything is looked at, or None."""
        if self.is_bad_handle(call):
            return "bad handle"
        if self.is_too_big(call):
            return "too big"
        if self.is_too_much(call):
            return "too much"
        return "bad word" if call.verb in ("load", "store") and call.words[0] >= len(self.world.words) else None

    def is_bad_handle(self, call):
        place = self.places.get(call.words[0]) if call.verb in KINDS else None
        return call.verb in KINDS and (place is None or place[0] not in KINDS[call.verb])

    def is_too_big(self, call):
        if call.verb in CARRIERS:
            return len(call.words[1]) > MOST_BYTES
        if call.verb in READS:
            return call.words[1] > MOST_BYTES
        return call.verb == "x_seek" and call.words[1] > MOST_IN_FILE

    def is_too_much(self, call):
        asked = 0
        if call.verb in CARRIERS:
            asked = len(call.words[1])
        elif call.verb in READS:
            asked = call.words[1]
        elif call.verb == "x_recvmsg":
            asked = MOST_BYTES
        if self.stored + asked > MOST_STORED or call.verb in MAKERS and self.made == MOST_MADE:
            return True
        return call.verb in OPENERS and len(PLACES) - len(self.places) < OPENERS[call.verb]

    def touched(self, call):
        """The objects that a call touches, each with whether it doesn't only look. One that is refused touches none."""
        if call.verb in BLOCK_CALLS or self.refusal(call):
            return {}
        return dict.fromkeys(self.objects(call), call.verb not in ONLY_LOOK)

    def objects(self, call):
        """The objects of a call that isn't refused."""
        if call.verb in ("load", "store"):
            return [f"word {call.words[0]}"]
        if call.verb in ("x_open", "x_create", "x_unlink", "x_rename"):
            return [f"name {name}" for name in call.words]
        if call.verb == "x_thread_create":
            return ["jobs"]
        if call.verb in KINDS and call.verb not in ("x_seek", "x_close"):
            return [" ".join(self.places[call.words[0]][:2])]
        return []

    def could_fail(self, call, count):
        """Whether a call that isn't refused could reply with a fault behind so many bytes."""
        if count:
            return call.verb in WRITES and count < len(call.words[1]) and self.write_reply(call) == "done"
        return call.verb in ASK_HOST or call.verb in READS and call.words[1] > 0 or call.verb in WRITES and call.words[1] != b""

    # ---- calls

    def call(self, call, said, tries):
        """Does a call; gives the reply that is due."""
        if call.verb in BLOCK_CALLS:
            return getattr(self, f"do_{call.verb}")(said, tries)
        refused = self.refusal(call)
        if refused:
            return refused
        for name, exclusive in self.touched(call).items():
            self.held[name] = self.held.get(name, False) or exclusive
        fault = FAULT.fullmatch(said)
        if fault and not self.could_fail(call, int(fault[1])):
            return None
        if call.verb in CARRIERS:
            self.stored += len(call.words[1])
        if fault:
            self.write(call, int(fault[1]))
            return said
        if call.verb in WRITES:
            return self.write_all(call)
        return getattr(self, f"do_{call.verb}")(call)

    def do_save(self, _, __):
        self.saved = Saved(self.world.copy(), dict(self.places), list(self.late), list(self.records))
        return "done"

    def do_keep(self, _, __):
        """Closes the block; without one nothing is changed."""
        self.saved = None
        return "done"

    def do_back(self, said, tries):
        """Goes back to the save; without one nothing is changed. Each record of the block may have met fewer faults than there are
        tries.
        """
        found = BACK.fullmatch(said)
        many = len(self.records) - len(self.saved.records) if self.saved else 0
        if not found or int(found[1]) > many * (tries - 1):
            return None
        if self.saved:
            self.world, self.places, self.late, self.records = self.saved
            self.saved = None
        self.faults_of_backs += int(found[1])
        return said

    def do_load(self, call):
        return str(self.world.words[call.words[0]])

    def do_store(self, call):
        at, value = call.words
        self.world.words[at] = value
        return "done"

    def got(self, data):
        """The reply of a call that brings bytes."""
        self.stored += len(data)
        return plain.shown(data)

    def open(self, *opened):
        """The reply of a call that opens these at the lowest vacant places."""
        free = [place for place in PLACES if place not in self.places][: len(opened)]
        self.places.update(zip(free, opened))
        return " ".join(free)

    def make(self, kind, *names):
        """The number of what the transaction makes, with its record."""
        number = f"{self.number}.{self.made}"
        self.made += 1
        made = "file" if kind == "made" else kind
        self.records.append(Record(kind, {f"{made} {number}", *(f"name {name}" for name in names)}, (*names, number)))
        return number

    def do_x_open(self, call):
        number = self.world.names.get(call.words[0])
        return self.open(("file", number, 0)) if number else "no name"

    def do_x_create(self, call):
        name = call.words[0]
        if name in self.world.names:
            return "exists"
        number = self.make("made", name)
        self.world.names[name], self.world.files[number] = number, b""
        return self.open(("file", number, 0))

    def do_x_rename(self, call):
        old, new = call.words
        if old not in self.world.names:
            return "no name"
        if new in self.world.names:
            return "exists"
        self.world.names[new] = self.world.names.pop(old)
        self.records.append(Record("moved", {f"name {old}", f"name {new}"}, (old, new)))
        return "done"

    def do_x_read(self, call):
        handle, count = call.words
        kind, number, at = self.places[handle]
        data = self.world.files[number][at : at + count]
        if count and not data:
            return "end"
        self.places[handle] = kind, number, at + len(data)
        return self.got(data)

    def write_reply(self, call):
        """What a write replies if no call of the host fails."""
        handle, data = call.words
        _, number, at = self.places[handle]
        size = len(self.world.files[number])
        if call.verb == "x_write_ovr":
            return "past end" if data and at + len(data) > size else "done"
        return "too big" if data and size + len(data) > MOST_IN_FILE else "done"

    def write_all(self, call):
        reply = self.write_reply(call)
        if reply == "done":
            self.write(call, len(call.words[1]))
        return reply

    def write(self, call, count):
        """Does the first bytes of a write; of any other call, and without bytes, nothing."""
        if call.verb not in WRITES or not count:
            return
        handle, data = call.words[0], call.words[1][:count]
        kind, number, at = self.places[handle]
        if call.verb == "x_write_seq":
            at = len(self.world.files[number])
        self.world.overwrite(number, at, data)
        self.places[handle] = kind, number, at + len(data)
        self.records.append(Record("bytes" if call.verb == "x_write_ovr" else "tail", {f"file {number}"}, (number, at, data)))

    def do_x_seek(self, call):
        handle, at = call.words
        self.places[handle] = (*self.places[handle][:2], at)
        return "done"

    def do_x_len(self, call):
        return str(len(self.world.files[self.places[call.words[0]][1]]))

    def do_x_close(self, call):
        del self.places[call.words[0]]
        return "done"

    def do_x_pipe(self, _):
        number = self.make("pipe")
        self.world.pipes[number] = b""
        return self.open(("pipe", number))

    def do_x_read_pipe(self, call):
        handle, count = call.words
        number = self.places[handle][1]
        data, rest = self.world.pipes[number][:count], self.world.pipes[number][count:]
        if count and not data:
            return "end" if number in self.world.shut else "empty"
        self.world.pipes[number] = rest
        return self.got(data)

    def do_x_pair(self, _):
        number = self.make("pair")
        self.world.pairs[number] = (), ()
        return self.open(("pair", number, 0), ("pair", number, 1))

    def do_x_recvmsg(self, call):
        _, number, side = self.places[call.words[0]]
        waiting = self.world.pairs[number][side]
        if not waiting:
            return "end" if number in self.world.shut else "empty"
        self.world.set_waiting(number, side, waiting[1:])
        return self.got(waiting[0])

    # ---- calls that are put off

    def put_off(self, call, kind, what, side=None, data=None):
        self.late.append(Late(call.slot, kind, what, side, data))
        return "late"

    def do_x_unlink(self, call):
        return self.put_off(call, "unlink", call.words[0])

    def do_x_sync(self, call):
        return self.put_off(call, "sync", self.places[call.words[0]][1])

    def do_x_write_pipe(self, call):
        return self.put_off(call, "write", self.places[call.words[0]][1], None, call.words[1])

    def do_x_shutdown(self, call):
        return self.put_off(call, "shutdown", self.places[call.words[0]][1])

    def do_x_sendmsg(self, call):
        _, number, side = self.places[call.words[0]]
        return self.put_off(call, "send", number, side, call.words[1])

    def do_x_thread_create(self, call):
        return self.put_off(call, "thread", call.words[0])
