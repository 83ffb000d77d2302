"""The setup of either end: its line, what it leaves, and both in words."""
from explain.names import REFUSALS
from second import calls
from second.wire import BASE_EID, BASE_UNIT

from .forms import option, read_options

ANSWERS = 0, 38, 39

# EID and unit can be such that an end refuses them.
SETUP_OPTIONS = {
    "unit": option("the transmission unit, payload bytes of a full packet: 64 to 250 (64 if not given)",
                   ("a unit", 0, 0xFFFF)),
}


def read_setup(record):
    """A reader for the setup of an end, whose record is made by this function of EID and unit."""
    def read(words):
        eid = words.number("an EID", 0, 255)
        found = read_options(words, SETUP_OPTIONS)
        return lambda session: session.call(record(eid, found.get("unit")))
    return read


def left_by(body, answer):
    """EID and unit of the state beside an answer: those that were given, or those beside a refusal."""
    return calls.setup_arguments(body) if answer == 0 else (BASE_EID, BASE_UNIT)


def setup_called(body):
    eid, unit = calls.setup_arguments(body)
    return f"setup with EID {eid}" + ("" if len(body) == calls.EID.size else f" and unit {unit}")


def setup_done(end, state):
    """An end that was set up; `state` has its EID and its unit."""
    return f"set up: the {end}'s EID is {state.eid} and its unit {state.unit}"


def setup_refused(answer, state):
    return f"{REFUSALS[answer]}; the state is the one for EID {state.eid} and unit {state.unit}"
