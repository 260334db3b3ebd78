"""A site's sudoers files moved to a desk, as docs/IMPORT.md says it, beside the real sudo of each
Debian: `make moving`."""
