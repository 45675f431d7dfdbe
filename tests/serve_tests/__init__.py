"""Tests of the command `grid serve`. Each is a function, whose sentence says what it shows."""
