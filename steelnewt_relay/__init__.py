"""Relays of the desk: people ask and approve by ssh, or on a page in the browser.

A relay is a client of the desk's HTTP interface. It knows who is calling, keeps each message on
its disk before it answers, and posts it until the desk has answered.
"""
