"""Drawings of a planarization: points, lines and documents."""
