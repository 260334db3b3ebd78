"""What became of a request: the desk's word, what it means to people, and the few words of a
relay's own for what no desk can know."""

# A relay's own words: the message is not at the desk yet; the desk refused the message; the desk told
# nothing; the window has ended; the window has ended, and the verdicts are in the desk's archive.
KEPT, REJECTED, UNKNOWN, OVER, ARCHIVED = "kept", "rejected", "unknown", "over", "archived"
# The desk's words (docs/AUDITING.md, 'What became of each request'), and behind them these: one
# sentence each, whatever the request.
SENTENCES = {
    "waiting": "It waits for approval.",
    "granted": "The desk grants it.",
    "refused": "Nothing is granted: somebody who might approve it refused it in time.",
    "void": "Nothing is granted: it was revoked before it began, or approved only after its end.",
    "disputed": "Nothing is granted: other requests have the same name. Ask under another number.",
    "lapsed": "Nothing is granted: who may ask for what has changed since, and not for this.",
    "parked": "Nobody asks under its name at the desk.",
    KEPT: "It is kept here and not yet at the desk. It is posted again by itself.",
    REJECTED: "The desk refused it.",
    UNKNOWN: "It is at the desk. What became of it is not known now.",
    OVER: "Its window is over.",
    ARCHIVED: "Its window is over. What became of it is in the desk's archive: ask an auditor.",
}
# Why a verdict does not count, by the desk's word.
BARS = {
    "asker": "nobody approves what they asked for themselves",
    "duty": "the duty to approve was not held then",
    "conflict": "a duty that conflicts with approving was held then",
    "late": "enough people had approved it before; only a revocation ends it now",
    "disputed": "other requests have the same name",
    "lapsed": "who may ask for what has changed since, and not for this",
    "parked": "nobody asks under that name",
}


def sentence(word: str) -> str:
    """What a word means; the word itself where a later desk has one more."""
    return SENTENCES.get(word, f"The desk says: {word}.")


def bar(word: str) -> str:
    """What the desk's word means for why a verdict does not count."""
    return BARS.get(word, word)
