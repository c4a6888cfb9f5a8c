"""Tests of the format: age files, headers, positions and vectors that others made or that Python computes."""
