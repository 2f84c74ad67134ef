"""The command `lint`: it asks the library, or runs the program, and tells what that refuses. The verdict is always their own."""

from __future__ import annotations

import argparse
import json
import os
from pathlib import Path
from typing import List, Optional, Sequence, Tuple

from ..calls.program_ends import convert_end, diagnose_end
from ..explaining.command_words import words_in_line
from ..explaining.explanations import Explanation
from ..explaining.graph_json import json_sentence
from ..explaining.refusals import explained, graph_explanation, line_explanation
from ..explaining.usage import explain_node, explain_words, files_of, graph_file
from ..program import Ended, file_words, run_program
from ..reading.graph_json import json_lines
from ..reading.graphs import graph_of
from ..reading.logs import EventLog
from ..reading.reports import read_report
from ..reading.texts import lines_of, read_text, text_of
from ..warning.log_warnings import LoggedGraph, log_warnings
from .ends import end_sentence
from .findings import MOST_TOLD, Findings, Told
from .refusals import Refusal, refusal_lines, wrapped

REFUSED_LINES, REFUSED_WORDS, REFUSED_GRAPH, NOT_READ = 1, 2, 3, 5

DESCRIPTION = """\
Says what the program refuses, and why: the line, the word at fault, and a sentence. After
that it warns of what is accepted and surely not meant, as an alarm that is repeated.

  lint GRAPH [LOG]     a graph, and the lines of a log
  lint --words WORD..  the words of a command line, with an empty input

The status is 0 if nothing is refused, 1 if lines of the log are, and else that of the program.
With --strict it is 1 for a warning too."""


def lint(words: Sequence[str]) -> int:
    """Runs the command on these words, and returns its status."""
    if words[:1] == ["--words"]:
        status, lines = lint_words([text_of(os.fsencode(word)) for word in words[1:]])
        print("\n".join(lines))
        return status
    said = _parser().parse_args(words)
    found = lint_graph(said.graph) if said.log is None else lint_log(said.graph, said.log)
    print(json.dumps(found.to_dict()) if said.json else "\n".join(found.lines(said.all)))
    return REFUSED_LINES if said.strict and found.status == 0 and found.warnings else found.status


def _parser() -> argparse.ArgumentParser:
    parser = argparse.ArgumentParser(prog="tfpg lint", description=DESCRIPTION, formatter_class=argparse.RawDescriptionHelpFormatter)
    parser.add_argument("graph", metavar="GRAPH")
    parser.add_argument("log", metavar="LOG", nargs="?")
    parser.add_argument("--all", action="store_true", help=f"tell each line, and not only the first {MOST_TOLD}")
    parser.add_argument("--strict", action="store_true", help="end with status 1 for a warning")
    parser.add_argument("--json", action="store_true", help="write one line of JSON")
    return parser


def lint_graph(graph: str) -> Findings:
    """What the program says of a graph."""
    ended = convert_end(graph)
    return Findings(0, graph) if ended.status == 0 else _graph_findings(graph, None, ended)


def _graph_findings(graph: str, log: Optional[str], ended: Ended) -> Findings:
    """What an end of a run says of a graph."""
    if ended.status == REFUSED_GRAPH:
        return Findings(ended.status, graph, log, graph_fault(graph, *ended.cause))
    if ended.status == NOT_READ:
        return Findings(ended.status, graph, log, end=_unread(graph))
    return Findings(ended.status, graph, log, end=[f"{graph}: {ended.line}", end_sentence(ended)])


def graph_fault(graph: str, number: int, cause: str) -> Told:
    """The refusal of a graph, with what a beginner needs to mend it. A graph that is JSON is refused as JSON, if it is refused so too."""
    content = Path(graph).read_bytes()
    lines = lines_of(text_of(content))
    known = graph_explanation(lines, number, cause)
    if cause == "BadHeader" and content.lstrip().startswith(b"{") and run_program(["convert", "--json", *file_words(graph)]).status != 0:
        known = Explanation(known.sentence, known.word, [*known.hints, f"As JSON it is no graph either. {json_sentence(content)}"])
    return Told(number, cause, lines[number - 1] if 0 < number <= len(lines) else None, known)


def lint_log(graph: str, log: str) -> Findings:
    """What the program says of a graph and of each line of a log. It looks at the empty set alone, for speed."""
    try:
        content = Path(log).read_bytes()
    except OSError:
        return Findings(NOT_READ, graph, log, end=_unread(log))
    ended = diagnose_end(graph, content, ["--k=0", "--budget=1"])
    if ended.status != 0:
        return _graph_findings(graph, log, ended)
    declared, lines = graph_of(read_text(graph)), lines_of(text_of(content))
    report = read_report(text_of(ended.output), declared)
    refused = [Told(one.line, one.cause, lines[one.line - 1], line_explanation(declared, lines, one.line, one.cause, one.time))
               for one in report.refused]
    events = EventLog(declared, lines, [one.line for one in report.rounds])
    warnings = [Told(one.line, one.cause, None if one.line is None else lines[one.line - 1], one.explanation)
                for one in log_warnings(LoggedGraph(declared, lines, events, report.refused))]
    return Findings(REFUSED_LINES if refused else 0, graph, log, count=len(lines), refused=refused, warnings=warnings)


def _unread(file: str) -> List[str]:
    """Why a file cannot be read: what the system says of it, or that it can be read now."""
    try:
        Path(file).read_bytes()
    except (OSError, ValueError) as fault:
        return [f"{file}: {getattr(fault, 'strerror', None) or fault}", "The file is absent or could not be read."]
    return [f"{file}: read fault", "Reading failed in the run, and the file can be read now."]


def _words_explanation(words: Sequence[str], cause: str) -> Explanation:
    if cause == "UnknownNode":
        return explain_node(words, graph_of(read_text(_file_name(words))))
    return explain_words(words, cause)


def _file_name(words: Sequence[str]) -> str:
    """The name of the graph's file."""
    return _system_name(graph_file(words))


def _system_name(word: str) -> str:
    """A word as the system has it, whose bytes the words have."""
    return os.fsdecode(word.encode("latin-1"))


def lint_words(words: Sequence[str]) -> Tuple[int, List[str]]:
    """What the program says of the words of a command line. It runs on them, with an empty input."""
    ended = run_program([os.fsdecode(word.encode("latin-1")) for word in words])
    line, _ = words_in_line(words)
    if ended.status == REFUSED_WORDS:
        cause = ended.cause[1]
        known = explained(lambda: _words_explanation(words, cause))
        return ended.status, refusal_lines(Refusal("words", cause, line, known))
    if ended.status == REFUSED_GRAPH:
        return ended.status, ["The program accepts the words, and refuses the graph.", *_words_graph(words, ended)]
    if ended.status in (0, 1):
        return 0, ["The program accepts these words."]
    said = [f"The program accepts the words. It says: {ended.line}", *wrapped(end_sentence(ended))]
    if ended.status == NOT_READ:
        unread = [lines for lines in map(_unread, map(_system_name, files_of(words))) if not lines[0].endswith(": read fault")]
        said += [line for first, *_ in unread[:1] for line in wrapped(first)]
    return ended.status, said


def _words_graph(words: Sequence[str], ended: Ended) -> List[str]:
    """Why the graph of words is refused: by its text, or as JSON."""
    file, (number, cause) = _file_name(words), ended.cause
    if "--json" not in words:
        return graph_fault(file, number, cause).lines(file)
    content = Path(file).read_bytes()
    if number == 0:
        return [f"{file}: {cause}", *wrapped(json_sentence(content))]
    sentence = graph_explanation(json_lines(content), number, cause).sentence
    return [f"{file}, line {number} of the text that it stands for: {cause}", *wrapped(sentence)]
