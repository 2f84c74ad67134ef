"""The command `brief`: it reads a report, or has one made, and says what stands in it."""

from __future__ import annotations

import argparse
import json
import sys
from pathlib import Path
from typing import List, Sequence

from ..inputs import add_files, add_terms, subject_in, terms_words
from ..program import LOST_LINES
from ..reading.fleets import FleetAnswers, is_fleet, read_fleet
from ..reading.graphs import graph_of
from ..reading.reports import Terms
from ..reading.spans import spans_at
from ..reading.subjects import Subject
from ..reading.texts import BadText, lines_of, read_text
from ..saying.speech import speech_of
from ..saying.times import start_of
from .as_json import brief_dict
from .changes import changes_of, put_changes
from .fleet import Known, known_vehicle, put_fleet, vehicle_dict, worst_first
from .losses import count_words, put_refused, put_warnings, warnings_of
from .paper import Paper, has_colour
from .ranking import put_ranking
from .why import put_why

DESCRIPTION = """\
Says what a crew needs of a report: the refused lines, what is surely not meant, what is
ranked now with its history, and what changed at the last line. It judges nothing: `tfpg
check` does. Without REPORT the program is run, with --k, --doubt and --budget as `diagnose`
has them. REPORT may be what `fleet` wrote, and LOG its stream: then there is a line for
each vehicle, the worst first, and --vehicle tells one whole."""


def brief(words: Sequence[str]) -> int:
    """Runs the command on these words, and returns its status."""
    parser = _parser()
    said = parser.parse_args(words)
    if said.json and said.why is not None:
        parser.error("--why has no JSON")
    report = read_text(said.report) if said.report is not None else None
    if report is None or not is_fleet(report):
        if said.vehicle is not None:
            parser.error("--vehicle is of the answers of a fleet, and REPORT is none")
        terms = terms_words(parser, said)
        return _told(said, subject_in(said.graph, Path(said.log).read_bytes(), report, terms, said.start))
    terms_words(parser, said)
    if said.vehicle is None and (said.why is not None or said.changes):
        parser.error("--why and --changes are of one vehicle of a fleet: say --vehicle NAME")
    return _told_fleet(said, report)


def _told(said: argparse.Namespace, subject: Subject, part: str = "") -> int:
    """Tells a subject as the words want it. Its log is the file, or a part of that, as these words say before its name."""
    if said.changes:
        _tell_changes(said, subject)
    elif said.json:
        print(json.dumps({"graph": said.graph, "log": part + said.log, **brief_dict(subject)}))
    else:
        paper = Paper(has_colour(sys.stdout))
        put_head(paper, subject, said.graph, part + Path(said.log).name)
        if said.why is None:
            put_brief(paper, subject, said.sets)
        else:
            if subject.report.refused:
                put_refused(paper, subject)
            put_why(paper, subject, said.why)
        sys.stdout.write(paper.text())
    return LOST_LINES if said.strict and subject.report.refused else 0


def _tell_changes(said: argparse.Namespace, subject: Subject) -> None:
    """A line for each change of the ranking. How many lines were refused comes first, or as JSON on standard error."""
    paper = Paper(has_colour(sys.stdout))
    put_refused(paper, subject)
    put_warnings(paper, subject)
    if said.json:
        sys.stderr.write(paper.text() if subject.report.refused or warnings_of(subject) else "")
    else:
        sys.stdout.write(paper.text() + "\n")
    for change in changes_of(subject):
        print(json.dumps(change.to_dict(subject)) if said.json else change.line(subject))


def _told_fleet(said: argparse.Namespace, report: str) -> int:
    """Tells a fleet, or one vehicle of it."""
    graph, stream = graph_of(read_text(said.graph)), lines_of(read_text(said.log))
    answers = read_fleet(report, stream)
    if said.vehicle is not None:
        if said.vehicle not in answers.vehicles:
            raise BadText(0, f"the fleet has no vehicle {said.vehicle}; it has {', '.join(answers.vehicles)}")
        one = known_vehicle(graph, answers.vehicles[said.vehicle], said.start)
        return _told(said, one.subject, f"{said.vehicle} of ")
    known = [known_vehicle(graph, vehicle, said.start) for vehicle in answers.vehicles.values()]
    _tell_fleet(said, answers, known, stream)
    return LOST_LINES if said.strict and (answers.stray or any(one.subject.report.refused for one in known)) else 0


def _tell_fleet(said: argparse.Namespace, answers: FleetAnswers, known: List[Known], stream: Sequence[str]) -> None:
    if said.json:
        print(json.dumps({"graph": said.graph, "log": said.log, "lines": len(stream), "stray": answers.stray, "modes": answers.modes,
                          "vehicles": [vehicle_dict(one) for one in worst_first(known)]}))
        return
    paper = Paper(has_colour(sys.stdout))
    terms = known[0].subject.report.terms
    paper.title(f"{Path(said.log).name} by {Path(said.graph).name}: {terms_sentence(terms)}")
    put_fleet(paper, answers, known, stream)
    sys.stdout.write(paper.text())


def _parser() -> argparse.ArgumentParser:
    parser = argparse.ArgumentParser(prog="tfpg brief", description=DESCRIPTION, formatter_class=argparse.RawDescriptionHelpFormatter)
    add_files(parser)
    what = parser.add_mutually_exclusive_group()
    what.add_argument("--why", metavar="SET", help="the refutation of a set in words; SET is as in a report, as - or A,!B")
    what.add_argument("--changes", action="store_true", help="a line for each change of the ranking, and nothing else of it")
    parser.add_argument("--sets", metavar="N", type=int, default=3, help="how many ranked sets have their history told (3)")
    parser.add_argument("--start", metavar="TIME", type=_start, default=0, help="the time of day of the time 0, as 6:00")
    parser.add_argument("--vehicle", metavar="NAME", help="one vehicle of a fleet")
    parser.add_argument("--strict", action="store_true", help=f"end with status {LOST_LINES} if lines were refused")
    parser.add_argument("--json", action="store_true", help="write a line of JSON; with --changes one for each change")
    add_terms(parser)
    return parser


def _start(text: str) -> int:
    start = start_of(text)
    if start is None:
        raise argparse.ArgumentTypeError("a time of day, such as 6:00")
    return start


def put_head(paper: Paper, subject: Subject, graph: str, log: str) -> None:
    paper.title(f"{log} by {Path(graph).name}: {terms_sentence(subject.report.terms)}")


def terms_sentence(terms: Terms) -> str:
    """What is looked at, in words."""
    wrong = f", of which at most {count_words(terms.doubt, 'wrong monitor')}" if terms.doubt else ""
    return f"sets of at most {count_words(terms.k, 'member')}{wrong}"


def put_brief(paper: Paper, subject: Subject, told: int) -> None:
    """All parts of a brief after its head."""
    put_refused(paper, subject)
    put_warnings(paper, subject)
    here = subject.last
    if here is None:
        paper.title("The log has no accepted line, so there is no round and no ranking.")
        return
    modes, mode = subject.graph.modes, spans_at(subject.log.changes, here.now)[-1].mode
    where = f", in mode {modes[mode]}" if len(modes) > 1 else ""
    paper.title(f"Now {speech_of(subject, '-').time(here.now)}{where}, by line {here.line}: {subject.line(here.line)}")
    put_ranking(paper, subject, here, told, bool(warnings_of(subject)))
    put_changes(paper, subject)
    ranked, covered, rejected, left = (f"{count:,}" for count in here.counts)
    paper.title(f"{ranked} ranked, {covered} covered, {rejected} rejected, {left} open.")
    paper.put("This brief judges nothing; tfpg check judges a report.", 0)
