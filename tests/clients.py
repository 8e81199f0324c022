"""Random calls of six threads over the static library for C: tests/live/six.c makes them, and each run is judged.

`run(program, seed, calls, prologue)` makes a run, and `judged(run)` gives what is wrong with it, or None. Its text has to be true of its
prologue by tests/player.py. And what each client was told has to be what the text has of it: the replies of each of its attempts, one after
another, and how each ended.
"""
import collections
import pathlib
import subprocess
import tempfile

import journal
import plain
import player

TOP = pathlib.Path(__file__).resolve().parents[1]
FLAGS = ["-std=gnu11", "-O2", "-Wall", "-Wextra", "-Werror", "-pthread", f"-I{TOP}/examples/live"]
SECONDS = 120
WORDS = 4
CLIENTS = 6
OBJECTS = 'file a "first"\nfile b "text "*20\nfile log\npipe in "in"\npair left right\n'
# Prologues: without faults, with some, and with undos that fail for good.
PROLOGUES = [
    OBJECTS,
    OBJECTS + "grain 7\nfault append 5 8\nfault cut 3 40\nfault any 60 63\n",
    OBJECTS + "fault cut 2 100000\nfault write_at 5 100000\nfault restore 2 100000\n",
]
# The kinds of replies that have no value, as examples/live/xcalls.h numbers them.
WORDS_OF_KINDS = "done,late,,end,empty,no name,exists,bad handle,past end,too big,too much,bad word"
KINDS = {words: kind for kind, words in enumerate(WORDS_OF_KINDS.split(","), 5)}
COMMITTED, AGAIN, ABORTED = "0", "2", "3"

Run = collections.namedtuple("Run", "prologue status text told errors")
# An attempt of a client: what it was told of its calls, and the code of its end.
Attempt = collections.namedtuple("Attempt", "client told end")


def archives(library, kit):
    """The library, and the archives behind it; None where there is no library."""
    folder = pathlib.Path(kit) / "c"
    return [library, folder / "libos_c.a", folder / "liblibc_c.a"] if pathlib.Path(library).exists() else None


def build(behind, folder, compiler="gcc"):
    """The program of the calls; None where it doesn't compile."""
    program = pathlib.Path(folder) / "six"
    done = subprocess.run([compiler, *FLAGS, TOP / "tests/live/six.c", *behind, "-o", program])
    return None if done.returncode else program


def run(program, seed, calls, prologue):
    """A run of so many calls in all."""
    with tempfile.TemporaryDirectory() as folder:
        told = pathlib.Path(folder) / "told"
        words = [program, str(seed), str(calls), str(WORDS), prologue, told]
        done = subprocess.run(words, stdout=subprocess.PIPE, stderr=subprocess.PIPE, timeout=SECONDS)
        return Run(prologue, done.returncode, done.stdout, told.read_text() if told.exists() else "", done.stderr.decode())


def attempts_told(text):
    """The attempts that the clients were told of, by client."""
    found, of_client = collections.defaultdict(list), None
    for line in text.splitlines():
        word, *rest = line.split(" ")
        if word == "attempt":
            of_client = found[int(rest[0])]
            of_client.append(Attempt(int(rest[0]), [], None))
        elif word == "end":
            of_client[-1] = of_client[-1]._replace(end=rest[0])
        else:
            of_client[-1].told.append(line)
    return found


def told_of(reply):
    """What C is told of a reply of a text: its kind, its value, the second handle of a pair, and bytes."""
    if reply[0] == '"':
        data = plain.bytes_of(reply)
        return f"2 {len(data)} 0 {data.hex()}"
    if reply.isdigit():
        return f"1 {reply} 0 "
    if reply[0] == "h":
        first, *second = [handle[1:] for handle in reply.split()]
        return f"4 {first} {second[0]} " if second else f"3 {first} 0 "
    if reply.startswith("done faults "):
        return f"7 {reply.split()[2]} 0 "
    return f"17 {reply.split()[1]} 0 " if reply.startswith("fault ") else f"{KINDS[reply]} 0 0 "


def attempts_of(entries):
    """The attempts that the entries of a text show, by client."""
    found = collections.defaultdict(list)
    for entry in entries:
        end = COMMITTED if entry.cause is None else ABORTED if entry.cause.kind == "asked" else AGAIN
        found[entry.job].append(Attempt(entry.job, [told_of(reply) for reply in entry.replies], end))
    return found


def prologue_of(made):
    """The prologue of a run."""
    return f"{made.prologue}words {WORDS}\n".encode()


def judged(made):
    """What is wrong with a run, as text; None if nothing."""
    if made.status:
        return f"status {made.status}: {made.errors.strip()}"
    found = player.told_verdict(prologue_of(made), made.text)
    if found:
        return f"the text is wrong at line {found[0]}: {found[1]}"
    told, shown = attempts_told(made.told), attempts_of(journal.read(made.text).entries)
    for client in range(1, CLIENTS + 1):
        pairs = zip(told[client], shown[client])
        wrong = [at for at, (one, other) in enumerate(pairs, 1) if one != other]
        if wrong or len(told[client]) != len(shown[client]):
            return f"client {client} was told of {len(told[client])} attempts, of {len(shown[client])} in the text; wrong are {wrong[:5]}"
    return None


def met(made):
    """What a text has of what is to be met: causes, ends and kinds of replies, counted."""
    counts = collections.Counter()
    for entry in journal.read(made.text).entries:
        counts[entry.cause.kind if entry.cause else "commit"] += 1
        counts["late"] += len(entry.late)
        counts["remains"] += len(entry.remains)
        counts["calls"] += len(entry.calls)
        counts["blocks"] += sum(call.verb == "save" for call in entry.calls)
        counts["backs"] += sum(call.verb == "back" for call in entry.calls)
        counts["faults"] += sum(reply.startswith("fault") for reply in entry.replies)
    return counts
