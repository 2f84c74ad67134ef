"""Brings the records of a system to a log: what its boxes wrote, by named rules, with an account of each record."""
