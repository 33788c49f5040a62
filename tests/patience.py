"""The one bound of all waits, and a wait for what nothing else tells."""

import time

# In seconds: only a hang takes so long, on however slow a machine.
PATIENCE = 600
PAUSE = 0.001


def wait_for(found, what="an event"):
    """What a call gives, once that is true. It is called again and again."""
    until = time.monotonic() + PATIENCE
    while not (value := found()):
        if time.monotonic() > until:
            raise TimeoutError(f"waited in vain for {what}")
        time.sleep(PAUSE)
    return value
