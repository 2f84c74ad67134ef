"""Says why the program refuses a graph, a line of a log, or the words of a command line, in sentences for a beginner."""
