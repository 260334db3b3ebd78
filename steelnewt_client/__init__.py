"""What every Python program beside the desk shares: the desk over HTTP, and the texts that it reads
and says.

`desk.py` asks and posts, `messages.py` writes messages, `codes.py` says what an answer means,
`moments.py` and `names.py` have the forms of moments and names. It needs nothing but Python.
"""
