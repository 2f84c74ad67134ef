"""The calls of the library for C: sessions, reports, checks, questions, predictions and verdicts."""
