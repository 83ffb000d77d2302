"""Children of the tests."""
import signal

def heed_signals():
    """For a child before it begins: a run in the background may ignore what a terminal sends, and a child would
    inherit that."""
    for number in (signal.SIGHUP, signal.SIGINT, signal.SIGTERM):
        signal.signal(number, signal.SIG_DFL)
