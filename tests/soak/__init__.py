"""Reads, writes and disks that fail, kills, and a million inputs: `make soak`."""
