"""Tests of hostile use. Each is a function, whose sentence says what it shows."""
