"""Tests of the package over the program itself."""
