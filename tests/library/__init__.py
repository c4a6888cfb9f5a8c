"""Tests of the C library, and of what is built on it in C, Rust and Go."""
