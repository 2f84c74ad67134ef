"""Explains what the program refuses: the word at fault, the cause in a sentence, and hints. It stands below all that says a refusal."""
