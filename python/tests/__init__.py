"""Tests of the package `temzaar`: `python3 -m unittest discover -s python` at the top of the repository."""
