"""The logs of request 2026-05, Abort tells.

A log declares nothing: it has no record for that, and of a taken command its Abort reports 2.
"""
from call_records import declare
from records import POLL, ask, complete, take
from second.wire import ABORT
from steps import BODY, COMMANDS, SLOTS, Described, replied

LOGS = Described()
log = LOGS.add

for slot, other in SLOTS:
    taken = (COMMANDS[slot], 1), (take(slot), 0)
    log(f"abort-taken-{slot}", *taken, (ask(ABORT, slot), 2), (POLL, replied(2, slot)),
        (complete(BODY, slot), 31))
    log(f"bad-declare-{slot}", *taken, ([declare(1, 1, slot), ask(ABORT, slot), POLL], "bad"))
