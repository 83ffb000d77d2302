"""Captures of a board's MCTP traffic: read, made into logs, compared with the log program, written.

    told       what is said on standard error; the answers in words
    hexlines   packets from lines of hex and from dumps
    pcap       packets from pcap and pcapng files
    make       a log's records from captured packets
    run        the log program's lines for a log
    write      a capture of a log and its answers
    check      what the board sent beside what the endpoint sends
    cli        the command line

Each part uses only those above it, and the second program of tests/, which knows the rules.
"""
import pathlib
import sys

ROOT = pathlib.Path(__file__).resolve().parent.parent.parent
if str(ROOT / "tests") not in sys.path:
    sys.path.insert(0, str(ROOT / "tests"))
