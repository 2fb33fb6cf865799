"""Unit tests, which need no compiler, no runtime and no spanprof; in tools/:
python3 -m unittest discover -s spanprof/conformance/tests -t ."""
