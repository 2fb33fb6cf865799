"""Unit tests of what the tools share; in tools/: python3 -m unittest discover -s spanprof/tests -t ."""
