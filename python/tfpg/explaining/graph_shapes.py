"""Why a line of a graph has none of the shapes, or is out of order."""

from __future__ import annotations

from typing import List, Optional, Sequence, Tuple

from ..limits import LONGEST_LINE, spoken
from ..reading.graphs import DeclaredGraph
from ..reading.texts import Word, words_of
from .explanations import Explanation
from .forms import empty_word, line_hints, quoted

KEYWORDS = ["mode", "failure", "or", "and", "edge", "end"]
SHAPES = {
    "mode": "`mode NAME`",
    "failure": "`failure NAME RARITY`",
    "edge": "`edge SOURCE TARGET TMIN TMAX MODES`",
    "end": "`end`",
}
ORDER = "A graph has its first line, then modes, then nodes, then edges, then `end`."


def shape_of(keyword: str, version: int) -> str:
    """The shape of a line with this keyword."""
    if keyword in ("or", "and"):
        lags = "LAG" if version == 1 else "LMIN LMAX"
        return f"`{keyword} NAME hidden` or `{keyword} NAME watch {lags}`"
    return SHAPES[keyword]


def explain_header(line: Optional[str], lines: Sequence[str]) -> Explanation:
    """Why the first line is neither `tfpg 1` nor `tfpg 2`."""
    sentence = "The first line is `tfpg 1` or `tfpg 2`, and nothing else."
    if line is None:
        return Explanation(sentence, None, ["The text is empty."])
    hints = line_hints(line, lines)
    whole = Word(line, 0) if line else None
    if line.startswith("\xef\xbb\xbf"):
        hints.append("The text begins with a byte order mark. Save it as UTF-8 without one.")
    elif line.startswith(("\xff\xfe", "\xfe\xff")):
        hints.append("The text is UTF-16. Save it as UTF-8 without a byte order mark.")
    elif line.lstrip().startswith("{"):
        hints.append("It begins like JSON. The program makes a graph of that: `tfpg convert --json OLD > NEW`")
    elif line.lower().rstrip() in ("tfpg 1", "tfpg 2") and line.rstrip() != line.lower().rstrip():
        hints.append("Small and capital letters differ.")
    elif line == "" or line.startswith("#"):
        hints.append("Empty lines and comments may stand below it.")
    elif line.split(" ")[0] == "tfpg":
        hints.append("There are the versions 1 and 2. In version 2 a monitor has two lags.")
    return Explanation(sentence, whole, hints)


def explain_shape(line: str, lines: Sequence[str], graph: DeclaredGraph) -> Explanation:
    """Why a line below the first is refused as `BadLine`, by what the lines above it declare."""
    hints = line_hints(line, lines)
    if len(line) > LONGEST_LINE:
        return Explanation(f"A line has at most {spoken(LONGEST_LINE)} bytes, and this one has {len(line):,}.", None, hints)
    words = words_of(line)
    if any(word.text == "" for word in words):
        return Explanation("Each space separates two words, so a space too many makes an empty word.", empty_word(line), hints)
    keyword = words[0].text
    if keyword not in KEYWORDS:
        return Explanation(f"{quoted(keyword)} is no keyword of a graph.", words[0], hints + _keyword_hints(words[0], line))
    fault = _count_fault(words, graph.version)
    if fault is not None:
        sentence, word, more = fault
        return Explanation(sentence, word, hints + more)
    return Explanation(_order_fault(keyword, graph), words[0], hints + [ORDER])


def _keyword_hints(word: Word, line: str) -> List[str]:
    if word.text.lower().rstrip("\r") in KEYWORDS and word.text.lower() != word.text:
        return ["Keywords have small letters."]
    if line.startswith("tfpg "):
        return ["The version stands in the first line only."]
    keywords = "A line begins with mode, failure, or, and, edge or end."
    return [keywords + " A comment begins with # in the first column." if "#" in word.text or "/" in word.text else keywords]


def _count_fault(words: List[Word], version: int) -> Optional[Tuple[str, Optional[Word], List[str]]]:
    """Why words are too few, too many, or neither `hidden` nor `watch`: a sentence, the word at fault, and hints."""
    keyword, count = words[0].text, len(words)
    right = [f"The shape is {shape_of(keyword, version)}."]
    if keyword in ("or", "and") and count >= 3:
        return _discrepancy_fault(words, version, right)
    needed = {"mode": 2, "failure": 3, "edge": 6, "end": 1}.get(keyword, 3)
    if count < needed:
        missing = needed - count
        return f"{missing} word{'s are' if missing > 1 else ' is'} missing after {quoted(words[-1].text)}.", words[-1], right
    if count > needed:
        more = ["A name has no spaces."] if keyword in ("mode", "failure") else []
        return f"{quoted(words[needed].text)} is one word too many.", words[needed], right + more
    return None


def _discrepancy_fault(words: List[Word], version: int, right: List[str]) -> Optional[Tuple[str, Optional[Word], List[str]]]:
    kind, count = words[2].text, len(words)
    if kind not in ("hidden", "watch"):
        return f"{quoted(kind)} is neither `hidden` nor `watch`.", words[2], right
    if kind == "hidden" and count > 3:
        return f"After `hidden` comes nothing, and here comes {quoted(words[3].text)}.", words[3], right
    if kind == "watch" and version == 2 and count == 4:
        lag = words[3].text
        return ("In version 2 `watch` has two numbers, the least lag and the greatest, and here is one.", words[3],
                right + [f"An alarm that may come at once has the least lag 0: `watch 0 {lag}`"])
    if kind == "watch" and version == 1 and count == 5:
        return ("In version 1 `watch` has one number, the greatest lag, and here are two.", words[4],
                right + ["A least lag needs version 2: the first line is then `tfpg 2`, and each monitor has two lags."])
    if kind == "watch" and count < 3 + version:
        return "After `watch` the lag is missing.", words[2], right
    if kind == "watch" and count > 3 + version:
        return f"{quoted(words[3 + version].text)} is one word too many.", words[3 + version], right
    return None


def _order_fault(keyword: str, graph: DeclaredGraph) -> str:
    """Why a line of a right shape is out of order."""
    if not graph.modes and keyword != "mode":
        what = {"edge": "an edge", "end": "`end`"}.get(keyword, "a node")
        return f"Here is {what} before any mode. There is at least one mode, and modes come first."
    first_edge = graph.edges[0].line if graph.edges else 0
    if keyword == "mode":
        return f"Here is a mode after a node: line {graph.nodes[0].line if graph.nodes else 0} declares one."
    return f"Here is a node after an edge: line {first_edge} declares one."
