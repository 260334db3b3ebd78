"""The tests, by what they test; each is started from the top, as `python3 -m tests.cases.cases`."""
