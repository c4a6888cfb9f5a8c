"""Tests of the gate itself: the checks, and the builds of a checkout."""
