"""A second program for the two-slot endpoint, the requester, the log program and the calls program.

It is written from documents 01 and 02 and the page of the calls program alone.

    python3 tests/second < LOG              the log program
    python3 tests/second calls < SCRIPT     the calls program
    python3 tests/second bench              the lines of the bench

    wire       the integrity check, EIDs and the transmission unit, packets and messages, as bytes
    endpoint   what a slot holds, and the calls
    requester  the controller's end: what it awaits, and the calls
    framing    how records are read
    log        the records of a log, and the line that each prints
    calls      the records of a script, and the line that each prints
    bench      the lines of the bench

Each part uses only those above it. Sentences in double quotes in the comments are sentences of document 01
or 02 and, in `calls`, of the page that fixes its records and lines. Where a quoted sentence of 01 says 64,
U is meant, and where it says 68, U + 4.
"""
