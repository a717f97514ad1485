"""The program `planar` and its processes: sessions, reports, pictures, and what a planarization is."""
