"""Reads the texts of tfpg: graphs, logs and reports. docs/formats.md has each of them. What is read here is not judged."""
