"""Explains a log of the endpoint: each record with its answer in words, and what the slots then are.

    names       tables: numbers and what they are called
    reading     the records of a log, with offsets and causes of faults
    following   an event: a record, its answer, the slots before and after
    wording     an event in words
    summary     what came, what was answered, what became of each command
    answers     where the answers come from: the log program, or a file
    text, page  events as text and JSON; as a page for a browser
    cli         the command line

Each part uses only those above it. `tools/explain.py --help` says what can be asked and what the fields of `--json` are.
"""
