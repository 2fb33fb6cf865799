"""Whether what a run did was legal."""
