"""Walks through a specification by hand: the command `cspwatch-explore`.

`Machine` asks the program what may and what must come after a trace, `Walk` is a trace with a way back, and
`searching` looks for what lies some steps ahead.
"""
