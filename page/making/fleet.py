"""Takes the output of a fleet apart: the log and the report of each vehicle."""

from tfpg.limits import LONGEST_LINE

from .texts import lines_of


def own_log(stream, name):
    """What stands after the name and a space in the lines that belong to this vehicle."""
    own = [line[len(name) + 1 :] for line in lines_of(stream) if line.startswith(name + b" ") and len(line) <= LONGEST_LINE]
    return b"".join(line + b"\n" for line in own)


def reports_in(lines):
    """The report of each vehicle, in the order in which they are named first: its lines, each with its number in the output."""
    reports, taking = {}, None
    for number, line in enumerate(lines, 1):
        kind, _, rest = line.partition(b" ")
        if kind == b"vehicle":
            taking = reports.setdefault(rest, [])
        elif kind in (b"stray", b"mode"):
            taking = None
        elif taking is not None:
            taking.append((number, line))
    return reports


def reports_of(stream, output):
    """The log and the report of each vehicle."""
    reports = reports_in(lines_of(output))
    return [(own_log(stream, name), b"".join(line + b"\n" for _, line in report)) for name, report in reports.items()]
