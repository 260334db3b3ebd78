"""The test of several desks behind a broker (docs/SEVERAL.md); `main.py` runs it."""
