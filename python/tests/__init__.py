"""Tests of the package over the built program, which GRIDLET names."""
