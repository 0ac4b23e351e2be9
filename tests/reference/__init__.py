"""A second opinion on cspwatch: a plain reader of scripts, judge, journal and line protocol.

It is written from the documents (`docs/LANGUAGE.md`, `SEMANTICS.md`, `JOURNAL.md`, `PROTOCOL.md`), apart from the
proved program, and as plainly as possible: whole terms, sets of them, no memory of answers but of a term's own steps.
The comparers in `tests/compare_*.py` hold the program's answers against it. From the bottom up:

    faults       numbers and words
    tokens       from bytes to tokens
    trees        what a text's tree is made of
    syntax       from tokens to a tree
    alphabet     channels, events, sets of events
    terms        processes
    names        what the names of a script are
    values       numbers, constants, truths and sets of values
    events       events, sets of events, renamings, the inputs of a prefix
    elaboration  from a tree to a specification
    printing     a specification as text
    steps        what a process can do next
    states       the processes reached by a trace, and the limits
    refinement   refinement, deadlock and determinism, by a search over all traces up to a length
    journal      files of records
    session      reports judged and recorded
    parts        files of journals in parts
    protocol     lines and replies
    showing      what `show` prints of a journal
    program      the command line
"""
