"""The command `fezdrok`: graph files are planarized, drawn, measured, judged and converted."""
