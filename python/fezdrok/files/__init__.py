"""Graphs that are read, and pictures in other forms: those of networkx."""
