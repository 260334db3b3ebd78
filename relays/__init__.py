"""The relay's programs as a clone runs them, what a site begins with, and their tests."""
