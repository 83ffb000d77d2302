#!/usr/bin/env python3
"""Makes logs from captures of a board, captures from logs, and compares a board with the endpoint.

    tools/capture.py from-hex FILE [-o LOG]      a log from lines of hex
    tools/capture.py from-pcap FILE [-o LOG]     a log from a pcap or pcapng file
    tools/capture.py check CAPTURE               what a board sent beside what the endpoint sends
    tools/capture.py to-pcap LOG [-o FILE]       a capture, for Wireshark, from a log and its answers

docs/CAPTURES.md explains the options.
"""
import sys

from captures.cli import main

if __name__ == "__main__":
    sys.exit(main())
