"""The door before a desk: it lets a message through only with its author's own signature.

`judge.py` says whose key made a signature, by the versions that `signers.py` keeps; `taking.py`
says what becomes of a message, and `log.py` keeps each signature before the desk is asked;
`serving.py` is the service. `verifying.py` looks at all of it again, without a desk.
"""
