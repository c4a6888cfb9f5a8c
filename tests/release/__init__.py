"""Tests of what is published: releases, packages, and the recipes of the documents."""
