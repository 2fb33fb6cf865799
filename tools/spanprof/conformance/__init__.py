"""A tester of task runtimes."""
