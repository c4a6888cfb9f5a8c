"""Tests of the programs age_tool and agefile: their arguments, streams, files, links, locks, positions and power cuts."""
