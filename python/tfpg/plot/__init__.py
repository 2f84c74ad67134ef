"""A picture of a ranking over time."""
