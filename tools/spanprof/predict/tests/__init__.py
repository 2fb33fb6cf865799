"""Unit tests, which need no compiler, runtime, browser or spanprof; in tools/:
python3 -m unittest discover -s spanprof/whatif/tests -t ."""
