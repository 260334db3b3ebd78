"""Debian's packages in a root of their own: `make package-test`."""
