"""Tests of the client for Python in clients/python, over `grid serve` and over members that misbehave."""
