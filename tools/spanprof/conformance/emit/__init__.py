"""Programs as C with OpenMP."""
