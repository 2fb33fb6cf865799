"""Unit tests, which need no compiler, runtime or spanprof; in tools/:
python3 -m unittest discover -s spanprof/imports/tests -t ."""
