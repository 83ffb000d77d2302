"""Tries endpoint and requester by hand: lines of words, each one or more calls, with the answers in words.

    values              numbers and bytes in a line
    forms               words and their options
    messages            commands and control primitives: the options of their lines, and their packets
    setups              the setup of either end: its line, what it leaves, and both in words
    declaring           a taken command that can be stopped: its declaration, and what an Abort of it says
    program             the calls program as a child
    requester           what the requester's records say, what a look at it shows, and its calls as events
    requester_words     the words of the requester, and the one that hands packets from end to end
    words               the words that a line can begin with, what each is given, and its help
    state               what a look at the endpoint shows
    watching            a call, its answer and the slots before and after, as an event
    telling             events in words
    requester_telling   the requester's events in words
    session             lines, one by one
    cli                 the command line and the prompt

Each part uses only those above it. Tables and words are those of `tools/explain/`, packets and records are
built as in `tests/`.
"""
