"""Programs of tasks, random and directed."""
