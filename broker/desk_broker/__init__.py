"""Several desks behind a replicated broker: what relays publish with, and what hands it to a desk.

docs/SEVERAL.md tells an operator how the parts fit.
"""
