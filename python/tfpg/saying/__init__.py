"""Says in words what texts of tfpg say, in the words of the page."""
