#!/usr/bin/env python3
"""Plays printed journals again, and says whether they are true.

`verdict(script, text)` gives None if the text is a true journal of the script, or `(line, reason)`: the number of a line and the first
reason against it. It is a reading of docs/SCRIPTS.md, and shares nothing with the program. The reasons come in this order:

- `toolong`, `script`, `form`: the text is too long, the script is refused, a line may not stand where it stands
- of one entry after another `numbers`, `reply`, `late`, `records`, `held`, `story`: its number and where it began; its replies, late ends
  and records, which are the plain machine's in the world that the entries before it left; what it held; its part in its job's story
- of one entry after another `grounds`: a conflict or a revocation names a holder; the entries behind it count too
- `tail`: the lines behind the entries

The line is that of the entry, for `tail` the first one behind the entries, and 0 for the first two. `answer(data)` takes a script, a line
`====` and a text as one piece, and gives what a checker prints of it.

`told_verdict(prologue, text)` judges a text of clients (docs/LIVE.md) by a prologue alone: what a client asks is what the entries say.
`tests/player.py --prologue FILE [--attempts N] [--undo-tries N]` does so with a text on standard input; it prints what a checker prints,
and ends with status 0 for `yes`, 1 for `no` and 2 for other words. Attempts are 1 to 4,294,967,295, and have no bound but that without N;
undo tries are 1 to 16, and 16 without N, as in the library for C. Texts that were handed out are judged with the last one behind them, as one text. A prologue that names no client is that
of c1, c2 and so on, as many as the text says. What a client asked last isn't known if the attempt ended for want of memory: then what was
held for it, and a record of it that is undone, are taken as they stand.
"""
import argparse
import bisect
import collections
import pathlib
import re
import sys

import asked
import journal
import machine
import plain
import reader
import told

MOST_BYTES = 67108864
MOST_READ = 68157446
MOST_ENTRIES = 10000
ANY_ATTEMPTS, MOST_TRIES = 4294967295, 16
STARVED = "no memory"
AGAIN = ("conflict", "revoked")
SPLIT = b"===="

# What the grounds of others need of an entry: what it held, and what it was to touch next, each with whether it doesn't only look.
Part = collections.namedtuple("Part", "entry held wanted")


def are_legal(records, undos, tries):
    """Whether the ends of records are those that a rollback may come to, from the newest one on."""
    standing = []
    for at in range(len(records), 0, -1):
        record, undo = records[at - 1], undos[at - 1]
        blocking = [newer for newer in standing if records[newer - 1].objects & record.objects]
        if undo.kind != record.kind or (undo.end == "blocked") != bool(blocking):
            return False
        if blocking and undo.by != min(blocking) or not blocking and not is_tried(record, undo, tries):
            return False
        standing += [at] if undo.end != "done" else []
    return True


def is_tried(record, undo, tries):
    """Whether a record that nothing blocks may have this end."""
    if undo.end == "done":
        return undo.faults < tries
    covered = len(record.parts[2]) if record.kind == "bytes" else 1
    return undo.faults == tries and undo.restored < covered


def remaining(records, undos):
    """The records that stand, in their order, each with how many of its bytes are restored."""
    return [(record, undo.restored or 0) for record, undo in zip(records, undos) if undo.end != "done"]


def remains_line(record, restored):
    """The line of a record that stands."""
    kind, parts = record.kind, record.parts
    if kind in ("bytes", "tail"):
        file, at, data = parts
        return f"  remains {kind} file {file} {'at' if kind == 'bytes' else 'from'} {at + restored} {plain.shown(data[restored:])}"
    if kind == "made":
        return f"  remains made {parts[0]} file {parts[1]}"
    return f"  remains {kind} {' '.join(parts)}"


class Job:
    """A job: the transactions that are left, what its variables, slots and handles are before the next one, and its attempts at it."""

    def __init__(self, transactions, variables, places, began):
        self.transactions, self.at = transactions, 0
        self.variables, self.places, self.slots = variables, places, {}
        self.least_began, self.rank, self.tries, self.is_starved = began, None, 0, False

    def lines(self):
        """The lines of its next transaction; None if none is left."""
        is_left = self.at < len(self.transactions) and not self.is_starved
        return self.transactions[self.at] if is_left else None

    def pass_on(self):
        """Goes on to the next transaction."""
        self.at, self.rank, self.tries = self.at + 1, None, 0


class Attempt:
    """An entry that is played in the world and the job that the entries before it left."""

    def __init__(self, world, job, entry, tries):
        self.world, self.job, self.entry, self.tries = world, job, entry, tries
        self.body = machine.Body(world, job.places, entry.number)
        self.walk, self.asked, self.records = None, [], self.body.records
        if job.lines() is not None:
            self.walk = self.way()
            for reply in entry.replies:
                self.asked.append(self.walk.next)
                self.walk.answer(reply)

    def way(self):
        """The way of its calls, as the script has it."""
        return asked.Walk(self.job.lines(), self.job.variables, self.job.slots)

    def next_call(self):
        """The call that is asked behind the replies, or None."""
        return self.walk.next if self.walk and isinstance(self.walk.next, journal.Call) else None

    def wanted(self):
        """What the next call touches."""
        call = self.next_call()
        return self.body.touched(call) if call else {}

    def replies_hold(self):
        """Whether each reply is that of the plain machine."""
        pairs = zip(self.entry.calls, self.entry.replies)
        return all(self.body.call(call, reply, self.tries) == reply for call, reply in pairs)

    def late_holds(self):
        """Whether each late end of a commit is that of the plain machine."""
        if self.entry.kind != "commit":
            return True
        late, ends = self.body.late, self.entry.late
        return len(late) == len(ends) and all(self.body.world.late(call, end) == end for call, end in zip(late, ends))

    def records_hold(self):
        """Whether the records of an abort are those of its calls, with legal ends, and what remains is what stands of them. Where
        memory was wanting, there may be one more of the next call.
        """
        self.records = self.body.records
        if self.entry.kind == "commit":
            return True
        if self.are_reported(self.records):
            return True
        for record in self.records_of_next() if self.is_starved() else []:
            if self.are_reported([*self.records, record]):
                self.records = [*self.records, record]
                return True
        return False

    def is_starved(self):
        return self.entry.cause is not None and self.entry.cause.kind == STARVED

    def are_reported(self, records):
        """Whether the entry's report is of these records."""
        undos, remains = self.entry.undos, self.entry.remains
        if len(records) != len(undos) or not are_legal(records, undos, self.tries):
            return False
        return [remains_line(*stands) for stands in remaining(records, undos)] == remains

    def records_of_next(self):
        """The records that the next call could have left, if it was done, or a write in part."""
        call = self.next_call()
        if not call or call.verb in machine.BLOCK_CALLS:
            return []
        body = machine.Body(self.body.world, self.body.places, self.entry.number)
        body.made, body.stored = self.body.made, self.body.stored
        body.call(call, "", self.tries)
        found = body.records
        if found and call.verb in machine.WRITES:
            number, at, data = found[0].parts
            found = [found[0]._replace(parts=(number, at, data[:count])) for count in range(len(data), 0, -1)]
        return found

    def held_holds(self):
        """Whether it held what its calls touched. Where memory was wanting, what the next call touches may be held too."""
        due, held = self.body.held, self.entry.held
        if held == list(due.items()) or not self.is_starved():
            return held == list(due.items())
        names, wanted = [name for name, _ in held], self.wanted()
        more = [name for name in wanted if name in names and name not in due]
        raised = {name: due.get(name, False) or wanted.get(name, False) for name in names}
        return names == [*due, *more] and all(exclusive in (due.get(name, raised[name]), raised[name]) for name, exclusive in held)

    def story_holds(self, attempts):
        """Whether it is the next part of its job's story."""
        job, entry = self.job, self.entry
        if self.walk is None or self.asked != entry.calls or not self.ends_as_asked():
            return False
        if entry.rank != (job.rank or entry.number):
            return False
        return not self.is_tried_again() or job.tries < attempts

    def is_tried_again(self):
        return self.entry.cause is not None and self.entry.cause.kind in AGAIN

    def ends_as_asked(self):
        """Whether what is asked behind all replies is an end of this kind."""
        cause, then = self.entry.cause, self.walk.next
        if cause is None or then == "commit":
            return then == "commit" and (cause is None or cause.kind in ("revoked", STARVED))
        if cause.kind == "asked":
            return then == "abort"
        if cause.kind == "conflict":
            return then != "abort"
        if cause.kind == "stuck":
            is_back = isinstance(then, journal.Call) and then.verb == "back"
            return is_back and self.has_stuck(cause.other)
        return True

    def has_stuck(self, number):
        """Whether this record is the newest that failed, and one of the open block."""
        failed = [at for at, undo in enumerate(self.entry.undos, 1) if undo.end == "failed"]
        return failed[-1:] == [number] and self.body.saved is not None and number > len(self.body.saved.records)

    def end(self):
        """Ends the attempt; gives the world behind it."""
        job, entry = self.job, self.entry
        job.least_began = entry.place + 1
        if entry.kind == "commit":
            job.variables, job.places = self.walk.variables, self.body.places
            slots = [(call.slot, plain.slot_number(end)) for call, end in zip(self.body.late, entry.late) if call.slot]
            job.slots = {**job.slots, **dict(slots)}
            job.pass_on()
            return self.body.world
        job.is_starved = self.is_starved()
        if self.is_tried_again():
            job.rank, job.tries = job.rank or entry.number, job.tries + 1
        elif not job.is_starved:
            job.pass_on()
        stands = remaining(self.records, entry.undos)
        world = self.world.copy() if stands else self.world
        for record, restored in stands:
            world.stand(record, restored)
        return world


class Client(Job):
    """A client: it always goes on."""

    def lines(self):
        return []


class ToldAttempt(Attempt):
    """An entry of a client: its calls are what was asked."""

    def way(self):
        return told.Told(self.entry)

    def is_open(self):
        """Whether the entry doesn't say what was asked last."""
        return self.walk is not None and self.walk.next == told.ANY

    def wanted(self):
        return told.Wish(len(self.world.words), self.body.places) if self.is_open() else {}

    def records_hold(self):
        """As of a script. Where memory was wanting, there may be one more record, which is undone."""
        if super().records_hold():
            return True
        *undos, last = self.entry.undos or [None]
        if not self.is_starved() or last is None or last.end != "done" or last.faults >= self.tries:
            return False
        self.entry = self.entry._replace(undos=undos)
        return self.are_reported(self.records)

    def held_holds(self):
        """As of a script. Where memory was wanting, there may be more that one call touches."""
        due, held = self.body.held, dict(self.entry.held)
        if not self.is_starved():
            return self.entry.held == list(due.items())
        more = [name for name in held if held[name] != due.get(name)]
        is_kept = list(held)[: len(due)] == list(due) and all(held[name] or not due[name] for name in due)
        return is_kept and told.may_touch(more, len(self.world.words), self.body.places)

    def story_holds(self, attempts):
        """As of a script, but for what it asks. Blocks don't stand in one another, and a client starts no job."""
        return super().story_holds(attempts) and self.walk.is_placed

    def ends_as_asked(self):
        """A way back that sticks is in a block, at the newest record that failed. Else each end is one that was asked."""
        cause = self.entry.cause
        return cause is None or cause.kind != "stuck" or self.has_stuck(cause.other)


class Player:
    """The world and the jobs that the entries so far left."""

    attempt, job = Attempt, Job

    def __init__(self, script, attempts, tries, entries):
        self.script, self.attempts, self.tries, self.entries = script, attempts, tries, entries
        self.world = machine.World(script)
        variables = {name: f"h{at}" for at, (name, _) in enumerate(script.handles)}
        places = {f"h{at}": place for at, (_, place) in enumerate(script.handles)}
        self.jobs = [self.job(script.blocks[name], variables, places, 0) for name in script.jobs]
        self.begins, self.parts = [], {}

    def play(self, entry):
        """Plays the next entry; gives the first reason against it, or None."""
        if not self.is_numbered(entry):
            return "numbers"
        attempt = self.attempt(self.world, self.jobs[entry.job - 1], entry, self.tries)
        if not attempt.replies_hold():
            return "reply"
        wanted = attempt.wanted()
        if not attempt.late_holds():
            return "late"
        if not attempt.records_hold():
            return "records"
        if not attempt.held_holds():
            return "held"
        if not attempt.story_holds(self.attempts):
            return "story"
        self.enter(attempt, wanted)
        return None

    def is_numbered(self, entry):
        """Whether its number is its own, its job is started, and it began in its turn."""
        at = bisect.bisect(self.begins, (entry.number, -1))
        below, above = self.begins[max(at - 1, 0) : at], self.begins[at : at + 1]
        if not 1 <= entry.number <= len(self.entries) or above and above[0][0] == entry.number:
            return False
        if not 1 <= entry.job <= len(self.jobs) or not self.jobs[entry.job - 1].least_began <= entry.began <= entry.place:
            return False
        return all(began <= entry.began for _, began in below) and all(began >= entry.began for _, began in above)

    def enter(self, attempt, wanted):
        """Goes on behind an entry, with the jobs that it started."""
        entry, job = attempt.entry, attempt.job
        bisect.insort(self.begins, (entry.number, entry.began))
        self.parts[entry.number] = Part(entry, dict(entry.held), wanted)
        self.world = attempt.end()
        for block in self.world.started[len(self.jobs) :]:
            self.jobs.append(Job(self.script.blocks[block], job.variables, job.places, entry.place + 1))

    # ---- conflicts and revocations

    def is_grounded(self, entry):
        """Whether a conflict or a revocation names one that was under way, of another job, and that held or was to touch the object."""
        cause = entry.cause
        if cause is None or cause.kind not in AGAIN:
            return True
        own, other = self.parts[entry.number], self.parts.get(cause.other)
        if other is None or other.entry.job == entry.job:
            return False
        if not max(entry.began, other.entry.began) <= cause.at <= min(entry.place, other.entry.place):
            return False
        if cause.kind == "conflict":
            return clash(cause.object, own.wanted, other.held)
        if other.entry.rank >= entry.rank:
            return False
        return clash(cause.object, own.held, other.held) or clash(cause.object, own.held, other.wanted)

    # ---- the lines behind the entries

    def is_tail(self, sheet):
        """Whether the lines behind the entries are those of an end to which they lead."""
        words = [(at, value) for at, value in enumerate(self.world.words) if value]
        if not self.are_jobs(sheet.jobs) or sheet.words != words or sheet.totals != [self.totals()]:
            return False
        return self.are_kept(sheet.kept)

    def are_jobs(self, lines):
        """Whether each job has its line."""
        if [line[:2] for line in lines] != list(enumerate(self.world.started, 1)):
            return False
        return all(end in self.ends_of(job) for job, (_, _, end) in zip(self.jobs, lines))

    def ends_of(self, job):
        """The ends that a job may have."""
        if job.is_starved:
            return [STARVED]
        if job.lines() is None:
            return ["done"]
        if job.tries == self.attempts:
            return ["gave up", STARVED]
        return [STARVED] + (["journal full"] if len(self.entries) == MOST_ENTRIES else [])

    def are_kept(self, lines):
        """Whether kept data come in their order, pipes in front of pairs, and stand in front of what the objects have."""
        pipes, pairs = ([line[1:] for line in lines if line[0] == kind] for kind in ("pipe", "pair"))
        numbers, sides = [by_number(line[0]) for line in pipes], [(by_number(line[0]), line[1]) for line in pairs]
        if lines != [("pipe", *line) for line in pipes] + [("pair", *line) for line in pairs]:
            return False
        if numbers != sorted(set(numbers)) or sides != sorted(sides):
            return False
        return all(data and self.world.pipes.get(number, b"").startswith(data) for number, data in pipes) and self.are_in_front(pairs)

    def are_in_front(self, pairs):
        """Whether these messages stand in front for the sides of pairs."""
        kept = collections.defaultdict(tuple)
        for number, side, message in pairs:
            kept[number, side] += (message,)
        return all(
            side < 2 and number in self.world.pairs and self.world.pairs[number][side][: len(messages)] == messages
            for (number, side), messages in kept.items()
        )

    def totals(self):
        """The numbers of the last line."""
        commits = sum(entry.kind == "commit" for entry in self.entries)
        remains = sum(len(entry.remains) for entry in self.entries)
        return commits, len(self.entries) - commits, sum(map(faults_of, self.entries)), remains


class ToldPlayer(Player):
    """The same for clients."""

    attempt, job = ToldAttempt, Client

    def ends_of(self, job):
        """A client that didn't end before is done at the close."""
        gave_up = ["gave up"] if job.tries == self.attempts else []
        return ["done", *gave_up] + (["journal full"] if len(self.entries) >= MOST_ENTRIES else [])


def by_number(number):
    return tuple(map(int, number.split(".")))


def clash(name, claims, others):
    """Whether two hold or touch an object in modes that don't go together."""
    return name in claims and name in others and (claims[name] or others[name])


def faults_of(entry):
    """How many faults an entry shows."""
    found = sum(machine.FAULT.fullmatch(reply) is not None for reply in entry.replies)
    found += sum(int(back[1]) for back in map(machine.BACK.fullmatch, entry.replies) if back)
    found += sum(end.startswith("fault") for end in entry.late)
    return found + sum(undo.faults or 0 for undo in entry.undos)


def verdict(script, text, attempts=100, undo_tries=3, by=Player):
    """None if the text is a true journal of the script; else a line's number and the reason."""
    if len(text) > MOST_BYTES:
        return 0, "toolong"
    if reader.read(script):
        return 0, "script"
    sheet = journal.read(text)
    if isinstance(sheet, int):
        return sheet, "form"
    player = by(plain.read_script(script.decode()), attempts, undo_tries, sheet.entries)
    for entry in sheet.entries:
        why = player.play(entry)
        if why:
            return entry.line, why
    for entry in sheet.entries:
        if not player.is_grounded(entry):
            return entry.line, "grounds"
    return None if player.is_tail(sheet) else (sheet.line, "tail")


def with_clients(prologue, text):
    """The prologue with clients c1, c2 and so on, as many as the text says; the prologue itself, if it names some."""
    if re.search(rb"^[\t ]*job\b", prologue, re.M):
        return prologue
    clients = len(re.findall(rb"^job ", text, re.M))
    return prologue + b"\n" + b"".join(b"job c%d\nend\n" % number for number in range(1, clients + 1))


def told_verdict(prologue, text, attempts=ANY_ATTEMPTS, undo_tries=MOST_TRIES):
    """None if the text is a true one of clients over the prologue; else a line's number and the reason."""
    return verdict(with_clients(prologue, text), text, attempts, undo_tries, ToldPlayer)


def shown_verdict(found):
    """What a checker prints of a verdict."""
    return "no line {} {}\n".format(*found) if found else "yes\n"


def parted(data):
    """The script and the text of one piece: they are parted at the first line of four equals signs."""
    at = 0 if data.startswith(SPLIT + b"\n") or data == SPLIT else data.find(b"\n" + SPLIT + b"\n") + 1
    if not at and data != SPLIT and not data.startswith(SPLIT + b"\n"):
        at = len(data) - len(SPLIT) if data.endswith(b"\n" + SPLIT) else len(data)
    return data[:at], data[at + len(SPLIT) + 1 :]


def answer(data, attempts=100, undo_tries=3):
    """What a checker prints of a script, the line that parts them, and a text."""
    return shown_verdict((0, "toolong") if len(data) >= MOST_READ else verdict(*parted(data), attempts, undo_tries))


def within(most):
    """What reads a number from 1 to the most that there may be."""

    def number(word):
        if not re.fullmatch(r"\+?[0-9]+", word) or not 1 <= int(word) <= most:
            raise argparse.ArgumentTypeError(f"{word} is no number from 1 to {most}")
        return int(word)

    return number


def main():
    words = argparse.ArgumentParser(prog="tests/player.py", description="Judges a text of clients by its prologue.")
    words.add_argument("--prologue", required=True, type=pathlib.Path, metavar="FILE")
    words.add_argument("--attempts", default=ANY_ATTEMPTS, type=within(ANY_ATTEMPTS), metavar="N")
    words.add_argument("--undo-tries", default=MOST_TRIES, type=within(MOST_TRIES), metavar="N")
    found = words.parse_args()
    verdict_found = told_verdict(found.prologue.read_bytes(), sys.stdin.buffer.read(), found.attempts, found.undo_tries)
    sys.stdout.write(shown_verdict(verdict_found))
    sys.exit(verdict_found is not None)


if __name__ == "__main__":
    main()
