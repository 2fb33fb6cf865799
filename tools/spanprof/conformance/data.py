"""The folder of what the tester has beside its modules: programs, the harness, mutants, expected failures."""
import pathlib

DATA = pathlib.Path(__file__).resolve().parents[2] / "conformance"
