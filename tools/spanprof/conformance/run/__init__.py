"""Runs of programs on a runtime."""
