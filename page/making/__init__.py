"""Makes the page: reads the files, lays the graph out, runs the check, and writes the document."""
