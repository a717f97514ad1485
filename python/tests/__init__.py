"""Tests of the package fezdrok: `python/run_tests`."""
