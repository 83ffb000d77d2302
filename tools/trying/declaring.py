"""A taken command that can be stopped: its declaration, and what an Abort of it says."""
from explain import names
from explain.following import Event
from explain.wording import ticket_words
from second import calls

DECLARE = calls.DECLARE             # the kind of its event; a log has no such record
ANSWERS = 0, 30, 31, 32, 34

# What can be declared: the word for it, and what the record has
MARKS = {"can": 1, "cannot": 0}


def is_declaration(body):
    """Whether a declaration's record has a body that it can have."""
    return len(body) == calls.DECLARATION.size and not calls.is_bad(DECLARE, body)


class Declaration(Event):
    """A declaration with its answer; the body has the slot and what is declared."""

    @property
    def known(self):
        return self.answer in ANSWERS

    @property
    def can(self):
        return self.body[1] == MARKS["can"]


# In words

def declare_called(event):
    declared = "can still be stopped" if event.can else "can no longer be stopped"
    return f"declare of slot {event.named} with ticket {names.number(event.ticket)}: the command {declared}"


def declare_done(event):
    """An accepted declaration, with what it means for an Abort."""
    if event.differs:
        return "declared"
    reports = "1: stopped with no effect" if event.can else "2: it may have had an effect"
    return f"declared: {ticket_words(event)}; an Abort now reports CPSR {reports}"


def declare_effects(event):
    """A declaration can repeat what was declared before, or what taking starts at."""
    if event.answer == 0 and event.before == event.after and not event.differs:
        yield "nothing changed: it was so before"


# The CPSR of Abort, where it is not known what the slot was
ABORTED = {
    **names.ABORTED,
    1: f"{names.ABORTED[1]}, or taken and stopped with no effect",
    2: "it was taken, and may have had an effect",
}
STOPPED = "it was taken, and was stopped with no effect, as the drive's software had declared"


def aborted_in(state):
    """The CPSR of an Abort that found its slot in this state."""
    return {**ABORTED, 1: STOPPED if state == "Process stoppable" else names.ABORTED[1]}
