"""Journals that a run could have left if memory had been wanting: a journal is cut within one of its entries, which is an abort then.

`starved(draws, script, text, attempts, tries)` gives the text of such a journal, or None if the drawn entry isn't fit for it. What its
records came to is drawn too, within the tries, and so is whether the next call left a record, or is held.
"""
import journal
import plain
import player


def ends(draws, records, tries):
    """Ends of records that a rollback may come to."""
    undos, standing = [], []
    for at in range(len(records), 0, -1):
        record = records[at - 1]
        blocking = [newer for newer in standing if records[newer - 1].objects & record.objects]
        if blocking:
            undo = journal.Undo(record.kind, "blocked", None, None, min(blocking))
        elif draws.below(2):
            undo = journal.Undo(record.kind, "done", None, draws.below(tries), None)
        else:
            covered = len(record.parts[2]) if record.kind == "bytes" else 1
            undo = journal.Undo(record.kind, "failed", draws.below(covered), tries, None)
        standing += [at] if undo.end != "done" else []
        undos.insert(0, undo)
    return undos


def undo_line(at, undo):
    """The line of a record's end."""
    if undo.end == "done":
        return f"  undo {at} {undo.kind} done faults {undo.faults}"
    if undo.end == "failed":
        return f"  undo {at} {undo.kind} failed restored {undo.restored} faults {undo.faults}"
    return f"  undo {at} {undo.kind} blocked by {undo.by}"


def last_lines(played):
    """The lines behind the entries: a job that has a transaction left has no memory for it."""
    jobs = enumerate(zip(played.world.started, map(played.ends_of, played.jobs)), 1)
    lines = [f"job {at} {block} {player.STARVED if player.STARVED in found else found[0]}" for at, (block, found) in jobs]
    lines += [f"word {at} {value}" for at, value in enumerate(played.world.words) if value]
    return [*lines, "total {} committed, {} aborted, {} faults, {} remains".format(*played.totals())]


def shortened(draws, entry, attempt):
    """An entry for which memory was wanting, from the attempt at its first calls: its report and what it held."""
    more, wanted = attempt.records_of_next(), attempt.wanted()
    records = attempt.body.records + ([draws.one(more)] if more and draws.below(2) else [])
    undos = ends(draws, records, attempt.tries)
    held = dict(attempt.body.held)
    for name, exclusive in wanted.items():
        if draws.below(2):
            held[name] = held.get(name, False) or exclusive
    remains = [player.remains_line(*stands) for stands in player.remaining(records, undos)]
    cause = journal.Cause(player.STARVED, None, None, None)
    return entry._replace(kind="abort", cause=cause, late=[], undos=undos, remains=remains, held=list(held.items()))


def entry_lines(entry, calls):
    """The lines of such an entry, with those of its calls."""
    first = f"abort t{entry.number} job {entry.job} rank {entry.rank} began {entry.began} {player.STARVED}"
    undos = [undo_line(at, entry.undos[at - 1]) for at in range(len(entry.undos), 0, -1)]
    held = ", ".join(name + ("" if exclusive else " shared") for name, exclusive in entry.held)
    return [first, *calls, *undos, *entry.remains] + ([f"  held {held}"] if held else [])


def starved(draws, script, text, attempts, tries):
    """A journal that is cut in a drawn entry; None if one in front of it has a larger number."""
    sheet, lines = journal.read(text), text.decode("latin-1").split("\n")
    if not sheet.entries:
        return None
    last = draws.one(sheet.entries)
    entries = sheet.entries[: last.place + 1]
    if sorted(entry.number for entry in entries) != list(range(1, len(entries) + 1)):
        return None
    count = draws.below(len(last.calls) + 1)
    cut = last._replace(calls=last.calls[:count], replies=last.replies[:count])
    played = player.Player(plain.read_script(script.decode()), attempts, tries, entries)
    if any(map(played.play, entries[:-1])):
        return None
    attempt = player.Attempt(played.world, played.jobs[last.job - 1], cut, tries)
    if not attempt.replies_hold():
        return None
    cut = entries[-1] = shortened(draws, cut, attempt)
    if played.play(cut) or not all(map(played.is_grounded, entries)):
        return None
    found = lines[: last.line - 1] + entry_lines(cut, lines[last.line : last.line + count]) + last_lines(played)
    return "".join(f"{line}\n" for line in found).encode("latin-1")
