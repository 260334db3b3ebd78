"""The forms of the names that a roster and a message have (docs/ROSTER.md, docs/MESSAGES.md)."""

import re

# A person, and a target user.
PERSON = r"[a-z_][a-z0-9._-]{0,31}"
# A relay, a host, a ceiling, a duty.
LABEL = r"[a-z][a-z0-9-]{0,31}"
# Names that sudo keeps for itself.
KEPT_BY_SUDO = ("sudoedit", "sha224", "sha256", "sha384", "sha512")
LABELS = re.compile(LABEL)


def is_label(text: str) -> bool:
    """Whether the text can be the name of a relay, a host, a ceiling or a duty."""
    return LABELS.fullmatch(text) is not None
