"""Graphs that the program searches for pictures with few crossings."""
