"""The names of causes in docs/formats.md, in the order of their numbers in the header."""

GRAPH_CAUSES = (
    "BadHeader", "BadLine", "BadName", "DuplicateName", "UnknownName", "BadNumber", "NumberTooLarge", "MinOverMax", "EdgeIntoFailure",
    "SelfEdge", "DuplicateEdge", "NoModes", "NoIncoming", "ZeroCycle", "TooManyNodes", "TooManyFailures", "TooManyEdges", "TooManyModes",
    "TooManyIncoming", "MissingEnd", "AfterEnd")
LOG_CAUSES = (
    "BadLine", "BadNumber", "TimeTooLarge", "TimeBack", "UnknownName", "NotMonitored", "NotAMode", "LogFull", "ModesFull", "TooLong")
REPORT_CAUSES = (
    "AfterClosed", "NotReusable", "NotAClause", "NotAFact", "NotOnPath", "Unchained", "NotNegative", "BadReport", "Surplus", "WrongRound",
    "WrongHypothesis", "WrongRanked", "NotATrace", "WrongOpen", "WrongRejected", "WrongStatus", "WrongCounts", "EndsEarly")
