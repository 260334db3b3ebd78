"""Time and memory: `make bench`."""
