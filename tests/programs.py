"""The programs that are compared with the second program, and what each of them reads."""
import collections

from second.calls import call_lines
from second.log import log_lines

# `kind` is what the program's inputs are called, and their folder here; `suffix` ends the name of a
# stored one; `lines` is the program's part in the second program.
Program = collections.namedtuple("Program", "name kind suffix lines")

LOG = Program("mi_log", "logs", ".log", log_lines)
CALLS = Program("mi_calls", "scripts", ".calls", call_lines)
