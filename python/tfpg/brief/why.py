"""Why a set is rejected: its refutation as nested cases. Of an open or a covered set, the steps so far."""

from __future__ import annotations

from typing import Optional, Tuple

from ..reading.reports import Round
from ..reading.sets import is_proper_part, members_of, set_words, spelled
from ..reading.steps import steps_of
from ..reading.subjects import Subject
from ..reading.texts import BadText
from ..reading.trees import Case, Choice, Contradiction, Tree, TreeNode, chain_of, contradictions_in, rests_on, tree_of
from ..saying.choices import case_sentence, excluded_sentence, reused_sentence, split_sentence
from ..saying.contradictions import contradiction_sentences, reason_sentence
from ..saying.speech import Speech, speech_of
from .paper import Paper
from .ranking import sets_words

MOST_LINES = 10
CROSS = "✕"


def put_why(paper: Paper, subject: Subject, asked: str) -> None:
    """What the report says of a set, and its steps in words."""
    text = _known(subject, asked)
    here = subject.last
    if here is None:
        paper.title("The log has no accepted line, so there is no round and no ranking.")
        return
    status, meaning = _meaning(subject, here, text)
    paper.title(f"Why not {set_words(text)}?" if status == "rejected" else f"{set_words(text)} is {status}")
    paper.put(meaning, 0, 0)
    hypothesis = subject.report.sets().get(text)
    steps = steps_of(subject.graph, subject.report, hypothesis) if hypothesis is not None else []
    if not steps:
        paper.put("No step was needed for it.", 0, 0)
        return
    tree = tree_of(subject.graph, subject.log, text, steps)
    _put_counts(paper, subject, tree)
    _put_node(paper, speech_of(subject, text), tree.root, 0)


def _known(subject: Subject, asked: str) -> str:
    """The set as the report spells it, or BadText if it is none of this graph and these terms."""
    failures, doubts = members_of(asked)
    graph, terms = subject.graph, subject.report.terms
    wrong = [name for name in failures if name not in graph.number_of or graph.nodes[graph.number_of[name]].kind != "failure"]
    if wrong:
        known = ", ".join(graph.name(node) for node in graph.failures)
        raise BadText(0, f"`{wrong[0]}` is no failure mode of the graph; these are {known}")
    wrong = [name for name in doubts if name not in graph.number_of or graph.nodes[graph.number_of[name]].lags is None]
    if wrong:
        raise BadText(0, f"`{wrong[0]}` has no monitor; these have one: {', '.join(graph.name(node) for node in graph.monitored)}")
    if len(failures) + len(doubts) > terms.k or len(doubts) > terms.doubt:
        raise BadText(0, f"the report is of sets of at most {terms.k} members, of which {terms.doubt} are monitors")
    return spelled(graph, asked)


def _meaning(subject: Subject, here: Round, text: str) -> Tuple[str, str]:
    """The status of a set, and what it means."""
    if text in here.open.values():
        return "open", "The budget of this round was spent, so nobody knows whether a history of it explains the log."
    if any(ranked.set == text for ranked in here.ranked):
        return "ranked", "It is in the ranking of this round. These steps were taken on the way to its history."
    since = next((one for one in subject.rounds if text in one.rejected.values()), None)
    if since is not None:
        time = speech_of(subject, text).time(since.now)
        return "rejected", f"Rejected since round {since.number}, at {time}: no history of it explains the log."
    covering = [ranked.set for ranked in here.ranked if is_proper_part(ranked.set, text)]
    if covering:
        return "covered", f"A part of it is ranked: {sets_words(covering)}. So nothing was to be done for it in this round."
    raise BadText(0, "the report says nothing of this set: it is not whole, or of another graph")


def _put_counts(paper: Paper, subject: Subject, tree: Tree) -> None:
    contradictions = list(contradictions_in(tree.root))
    left = " Some case is left, so this is no refutation so far." if tree.state == "partial" else ""
    counts = f"{_count(tree.step_count, 'step')}, {_count(len(contradictions), 'contradiction')}.{left}"
    rests = [f"line {subject.log.events[number - 1].line} {_event_words(subject, number)} ({times}×)"
             for number, times in rests_on(contradictions)]
    more = f" and {len(rests) - MOST_LINES} more lines" if len(rests) > MOST_LINES else ""
    said = f"It rests on {', '.join(rests[:MOST_LINES])}{more}." if rests else "It rests on no line of the log."
    if tree.complaint:
        paper.warn(f"The steps do not fit. {tree.complaint}", 0, 0)
    paper.put(f"{counts} {said} ¶ is a line of the report.", 0, 0)
    paper.lines.append("")


def _count(number: int, word: str) -> str:
    return f"{number} {word}{'' if number == 1 else 's'}"


def _event_words(subject: Subject, number: int) -> str:
    event, graph = subject.log.events[number - 1], subject.graph
    named = graph.name(event.node) if event.node is not None else graph.modes[event.mode] if event.mode is not None else ""
    return f"{event.kind} {named}".strip()


def _put_node(paper: Paper, speech: Speech, node: Optional[TreeNode], indent: int) -> None:
    if node is None:
        paper.put("This case is not ruled out so far.", indent)
    elif isinstance(node, Contradiction):
        _put_contradiction(paper, speech, node, indent)
    else:
        _put_choice(paper, speech, node, indent)


def _put_choice(paper: Paper, speech: Speech, choice: Choice, indent: int) -> None:
    paper.put(f"choice {choice.number}: {split_sentence(speech, choice)} ¶{choice.step.at}", indent)
    for case in choice.cases:
        name = f"case {case.number} of {len(choice.cases)}: {case_sentence(speech, choice, case)}"
        but = _trivial_sentence(speech, case)
        if case.reused is not None:
            paper.put(f"{name} {CROSS} {reused_sentence(case)} ¶{case.reused_at}", indent + 2)
        elif but is not None:
            paper.put(f"{name} {CROSS} but {but}", indent + 2)
        else:
            paper.put(name, indent + 2)
            _put_node(paper, speech, case.child, indent + 4)
    excluded = "; ".join(excluded_sentence(speech, choice, other) for other in choice.found.excluded)
    if excluded:
        paper.put(f"No other way: {excluded}.", indent + 2)


def _trivial_sentence(speech: Speech, case: Case) -> Optional[str]:
    """Of a case that one reason closes together with the case itself that reason, and nothing of all other cases."""
    child = case.child
    if not isinstance(child, Contradiction) or len(child.constraints) != 2:
        return None
    own = next((place for place, pick in enumerate(child.picks) if pick is not None and pick[1] is case), None)
    if own is None:
        return None
    other, first = 1 - own, child.step.at
    said = reason_sentence(speech, child.step.reasons[other], child.constraints[other], child.picks[other])
    return f"{said} ¶{first}-{first + 2}"


def _put_contradiction(paper: Paper, speech: Speech, contradiction: Contradiction, indent: int) -> None:
    sentences, end = contradiction_sentences(speech, contradiction)
    links, _ = chain_of(contradiction)
    for number, (link, sentence) in enumerate(zip(links, sentences), 1):
        paper.put(f"{number}. {sentence} ¶{contradiction.step.at + 1 + link.place}", indent)
    paper.put(f"{CROSS} {end}. ¶{contradiction.step.at}", indent)
