"""The commands `ask`, `explain` and `predict` of the program, which say first what the log refused."""
