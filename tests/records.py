"""What the calls of a journal leave to be undone and to be done late, read off their lines; a block that goes back leaves nothing.

`left_by(lines)` gives the kinds of the records of the calls in these lines, in their order, and the number of their late calls; the
number of records at the save whose block is still open, or None; and each back with its place in the lines, the number of records of
its block, and its faults. The lines are those of one entry; of several only the backs mean something.
"""
import collections
import re

SAVE, KEEP = "  save = done", "  keep = done"
BACK = re.compile(r"  back = done faults (\d+)")
# A call that has a record, since it made or renamed something, or wrote at least one byte; and the kind of its record.
RECORD = re.compile(
    r"  x_(?:(create) \S+ = h\d+|(rename) \S+ \S+ = done|(pipe) = h\d+|(pair) = h\d+ h\d+"
    r'|(write_ovr|write_seq) h\d+ ".+" = (?:done|fault [1-9]\d*))'
)
KINDS = {"create": "made", "rename": "moved", "pipe": "pipe", "pair": "pair", "write_ovr": "bytes", "write_seq": "tail"}

Left = collections.namedtuple("Left", "kinds late saved backs")
Back = collections.namedtuple("Back", "at records faults")


def left_by(lines):
    """What the calls in these lines leave."""
    kinds, late, saved, backs = [], 0, None, []
    for at, line in enumerate(lines):
        back, record = BACK.fullmatch(line), RECORD.fullmatch(line)
        if line == SAVE:
            saved = len(kinds), late
        elif line == KEEP:
            saved = None
        elif back:
            before, late = saved or (len(kinds), late)
            backs.append(Back(at, len(kinds) - before, int(back[1])))
            kinds, saved = kinds[:before], None
        elif record:
            kinds.append(KINDS[record[record.lastindex]])
        else:
            late += line.endswith(" = late")
    return Left(kinds, late, saved[0] if saved else None, backs)
