"""What the documents and manual pages say, done as they say it: `make pages`."""
