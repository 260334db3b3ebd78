"""desk-host and the real sudo of each Debian: `make hosts`."""
